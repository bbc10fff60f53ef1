# A store through an entry without D: the handler sets it, in the slot that tlbp finds, and the store is done again.
        lui   $8, 0x8000
        lui   $10, 0x0810
        ori   $10, $10, 0x0014    # j 80400050
        sw    $10, 0x80($8)
        lui   $16, 0x0041
        ori   $10, $16, 0x0040
        mtc0  $10, $10            # EntryHi: page 00410000, address space 1
        lui   $11, 0x0050
        ori   $11, $11, 0x0200
        mtc0  $11, $2             # EntryLo: frame 00500000, V
        addiu $12, $zero, 0x0900
        mtc0  $12, $0             # Index: slot 9
        tlbwi
        mtc0  $zero, $0
        addiu $17, $zero, 42
        sw    $17, 8($16)
        lw    $18, 8($16)
        nop
        break 1
        nop
        mfc0  $27, $2             # EntryLo is as the entry was written
        mfc0  $26, $14
        ori   $27, $27, 0x0400    # D
        mtc0  $27, $2
        tlbp
        nop
        tlbwi
        jr    $26
        rfe
