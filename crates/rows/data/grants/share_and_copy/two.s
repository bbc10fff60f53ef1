# Puts what its page has.
        lui   $8,0x41
        lbu   $4,0($8)
        addiu $2,$0,1
        syscall
        addiu $2,$0,0
        syscall
