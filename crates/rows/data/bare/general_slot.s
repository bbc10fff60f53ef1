# A system call in the slot of a branch: EPC is the branch, Cause has BD, and the handler goes on at the word after the slot.
        lui   $8, 0x8000
        lui   $10, 0x0810
        ori   $10, $10, 0x000C    # j 80400030
        sw    $10, 0x80($8)
        bne   $8, $zero, there
        syscall
        addiu $18, $zero, 1       # here the handler leads
there:  break 1
        .space 16
        mfc0  $26, $13            # Cause
        mfc0  $27, $14            # EPC
        bgez  $26, left           # no BD
        addiu $27, $27, 4
        addiu $27, $27, 4
left:   jr    $27
        rfe
