        lui $8,0x43
put:    sw $8,0($8)
        addiu $2,$0,0
        syscall
