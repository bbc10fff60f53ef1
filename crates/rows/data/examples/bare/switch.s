# Two address spaces and one page: each has a frame of its own, and the switch is a write of EntryHi.
        lui   $8, 0x8050          # physical 00500000, in kseg0
        addiu $9, $zero, 11
        sw    $9, 0($8)           # frame 00500000 begins with 11
        addiu $9, $zero, 22
        sw    $9, 0x1000($8)      # frame 00501000 with 22
        lui   $8, 0x0041          # page 00410000
        lui   $9, 0x0050          # frame 00500000
        ori   $10, $8, 0x0040
        mtc0  $10, $10            # EntryHi: the page in address space 1
        ori   $11, $9, 0x0600
        mtc0  $11, $2             # EntryLo: frame 00500000, D, V
        mtc0  $zero, $0           # Index: slot 0
        tlbwi
        ori   $10, $8, 0x0080
        mtc0  $10, $10            # the same page in address space 2
        ori   $11, $9, 0x1600
        mtc0  $11, $2             # frame 00501000
        addiu $12, $zero, 0x0100
        mtc0  $12, $0             # slot 1
        tlbwi
        addiu $10, $zero, 0x0040
        mtc0  $10, $10            # to address space 1
        lw    $16, 0($8)          # 11
        addiu $10, $zero, 0x0080
        mtc0  $10, $10            # to address space 2
        lw    $17, 0($8)          # 22
        nop
        break 1
