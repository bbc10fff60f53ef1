# Puts an A, and should end here.
        addiu $4,$0,65
        addiu $2,$0,1
        syscall
