# Gives a copy of what it was given, yields, and loads from its own.
        lui   $8,0x41
        addu  $4,$8,$0
        addiu $5,$0,3
        addu  $6,$8,$0
        addiu $7,$0,3           # as a copy
        addiu $2,$0,6
        syscall
        addiu $2,$0,3
        syscall
        lw    $9,0($8)
