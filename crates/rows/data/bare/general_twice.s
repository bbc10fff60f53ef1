# An exception within the handler: the registers of the coprocessor are the second's, so the handler has kept EPC of the first. Of the
# three pairs of Status the oldest is lost, which was not 0.
        lui   $8, 0x8000
        lui   $10, 0x0810
        ori   $10, $10, 0x000C    # j 80400030
        sw    $10, 0x80($8)
        addiu $10, $zero, 0x000C
        mtc0  $10, $12            # Status: KUp and IEp
        addiu $16, $zero, 1
        syscall
        break 1
        .space 12
        mfc0  $26, $13            # Cause
        mfc0  $17, $14            # EPC
        andi  $26, $26, 0x007C
        addiu $26, $26, -16       # 4, a load from an address that is not aligned
        beq   $26, $zero, second
        nop
        addiu $18, $17, 4
        lw    $19, 0($16)         # raises the second
        jr    $18
        rfe
second: addiu $17, $17, 4
        jr    $17
        rfe
