# With a handler at the general vector break 2 runs it, and break 1 ends the run.
        lui   $8, 0x8000
        lui   $10, 0x0810
        ori   $10, $10, 0x0008    # j 80400020
        sw    $10, 0x80($8)
        break 2
        addiu $18, $zero, 1
        break 1
        nop
        mfc0  $26, $14
        nop
        addiu $26, $26, 4
        jr    $26
        rfe
