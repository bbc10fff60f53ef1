# The clock asks for an interrupt once in 32 instructions, and the handler counts in register 18.
        lui   $8, 0x8000
        lui   $10, 0x0810
        ori   $10, $10, 0x0014    # j 80400050
        sw    $10, 0x80($8)
        lui   $8, 0xBFE8          # 1FE80000 in kseg1
        addiu $9, $zero, 3
        sw    $9, 0x28($8)        # a period of 32 ticks
        addiu $9, $zero, 0x40
        sw    $9, 0x2C($8)        # it may ask
        addiu $9, $zero, 0x0801
        mtc0  $9, $12             # Status: IM bit 3, and IEc
        addiu $10, $zero, 2
wait:   bne   $18, $10, wait
        nop
        break 1
        .space 20
        lw    $27, 0x30($8)       # the flags, which are cleared
        mfc0  $26, $14
        addiu $18, $18, 1
        jr    $26
        rfe
