# The clock asks for an interrupt, and interrupts are off.
        lui   $8, 0xBFE8          # 1FE80000 in kseg1
        addiu $9, $zero, 3
        sw    $9, 0x28($8)        # rate 3: a period of 32 ticks
        addiu $9, $zero, 0x40
        sw    $9, 0x2C($8)        # it may ask
        .space 108                # 27 nop: a period ends with the tick after the 32nd instruction
        mfc0  $10, $13            # Cause: IP3
        mfc0  $11, $12            # Status: 0
        lw    $12, 0x30($8)       # the flags, which are cleared
        nop
        break 1
