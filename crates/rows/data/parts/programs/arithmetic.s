start:
        addiu $8,$0,1000
        addiu $9,$0,0
        lui $10,0x9E37
        ori $10,$10,0x79B9
loop:
        addu $9,$9,$10
        sll $11,$9,5
        xor $9,$9,$11
        srl $11,$9,7
        addu $9,$9,$11
        sltu $12,$9,$10
        addu $13,$13,$12
        addiu $8,$8,-1
        bne $8,$0,loop
        nor $14,$9,$13
        j start
        nop
