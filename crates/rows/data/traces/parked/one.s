# Asks for its number, and loads from so many MiB, where it has nothing. Who is resumed with more to do gives what it does not have.
        addiu $2,$0,5
        syscall
        sll   $8,$2,20
        lw    $9,0($8)
        addiu $2,$0,6
        syscall
        break
