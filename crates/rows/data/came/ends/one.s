# Puts E, and ends.
        addiu $4,$0,69
        addiu $2,$0,1
        syscall
        addiu $2,$0,0
        syscall
