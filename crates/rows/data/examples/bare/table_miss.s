# The same handler over a page table in kseg2, which nothing maps: its load of the table misses.
        bgezal $zero, setup       # register 31: the address of the next word but one, in kseg0
        nop
        .word user                # where the user begins
        mfc0  $26, $4             # the handler: Context is the address of the page's entry in the table
        mfc0  $27, $14            # EPC: where the miss was
        lw    $26, 0($26)         # the entry
        nop                       # its load is late
        mtc0  $26, $2             # EntryLo
        addu  $26, $zero, $zero
        tlbwr                     # EntryHi has had the page and the address space since the miss
        jr    $27
        rfe                       # in the slot: back to the mode of the miss
setup:  lui   $8, 0x8000          # the handler is copied to 80000000
        addiu $9, $31, 0
        addiu $11, $zero, 9
copy:   lw    $10, 4($9)
        addiu $9, $9, 4
        sw    $10, 0($8)
        addiu $11, $11, -1
        bne   $11, $zero, copy
        addiu $8, $8, 4
        lui   $9, 0xC000          # PTEBase: the table is at C0000000, which is mapped
        mtc0  $9, $4              # Context: PTEBase
        addiu $10, $zero, 0x40
        mtc0  $10, $10            # EntryHi: address space 1
        addiu $10, $zero, 8
        mtc0  $10, $12            # Status: KUp, so that rfe leads into user mode
        lw    $10, 0($31)
        nop
        jr    $10
        rfe
user:   lui   $16, 0x0041         # its fetch misses
        addiu $17, $zero, 42
        sw    $17, 8($16)         # misses
        lw    $18, 8($16)         # hits
        nop
        break 1
