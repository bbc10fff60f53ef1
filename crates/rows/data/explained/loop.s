        lui $8,0x41
loop:   sw $0,0($8)
        j loop
        nop
