# Puts what the copy has, stores c there, and puts that.
        lui   $8,0x41
        lbu   $4,0($8)
        addiu $2,$0,1
        syscall
        addiu $9,$0,99
        sb    $9,0($8)
        lbu   $4,0($8)
        addiu $2,$0,1
        syscall
        addiu $2,$0,0
        syscall
