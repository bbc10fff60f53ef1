# Puts F twice, and ends.
        addiu $4,$0,70
        addiu $2,$0,1
        syscall
        addiu $2,$0,1
        syscall
        addiu $2,$0,0
        syscall
