# A handler at the general vector goes on after a system call.
        j     setup
        nop
        mfc0  $26, $14            # five words go to 80000080: EPC
        addiu $18, $18, 1
        addiu $26, $26, 4
        jr    $26
        rfe
setup:  lui   $8, 0x8000
        lui   $9, 0x8040
        addiu $11, $zero, 5
copy:   lw    $10, 8($9)
        addiu $9, $9, 4
        sw    $10, 0x80($8)
        addiu $11, $11, -1
        bne   $11, $zero, copy
        addiu $8, $8, 4
        addiu $10, $zero, 0x000C
        mtc0  $10, $12            # Status: KUp and IEp, which a call pushes and rfe pops
        syscall
        addiu $19, $zero, 2
        syscall 5
        break 1
