# Stores into both.
        lui $8,0x43
        lui $9,0x44
loop:   sw $0,0($8)
        sw $0,0($9)
        j loop
        nop
