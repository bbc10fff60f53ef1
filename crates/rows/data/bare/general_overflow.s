# An overflow changes no register, and the handler puts the largest number into the sum's place.
        lui   $8, 0x8000
        lui   $10, 0x0810
        ori   $10, $10, 0x000C    # j 80400030
        sw    $10, 0x80($8)
        lui   $16, 0x7FFF
        ori   $16, $16, 0xFFFF
        addiu $17, $zero, 1
        add   $18, $16, $17
        addu  $19, $18, $17       # 80000000
        break 1
        .space 8
        mfc0  $26, $14
        addu  $18, $16, $zero
        addiu $26, $26, 4
        jr    $26
        rfe
