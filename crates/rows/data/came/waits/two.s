# Waits for a character, gets it, puts it, and ends.
        addiu $2,$0,9
        syscall
        addiu $2,$0,2
        syscall
        addu  $4,$2,$0
        addiu $2,$0,1
        syscall
        addiu $2,$0,0
        syscall
