# One call of a number that is no call, and the end.
        addiu $2,$0,99
        syscall
        addiu $2,$0,0
        syscall
