start:
        lui $8,0x41
        addiu $9,$8,2048
loop:
        lw $10,0($8)
        lbu $11,1024($8)
        addiu $10,$10,1
        sw $10,0($8)
        addu $12,$12,$11
        sb $12,2048($8)
        addiu $8,$8,4
        bne $8,$9,loop
        lh $13,2($8)
        j start
        nop
