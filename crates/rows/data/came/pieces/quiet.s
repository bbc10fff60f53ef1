# Ends.
        addiu $2,$0,0
        syscall
