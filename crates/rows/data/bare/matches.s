# Slots of the buffer that begin to match each other, go on to do so, cease, and begin again.
        lui   $8, 0x0041          # page 00410000
        lui   $9, 0x0042          # page 00420000
        ori   $10, $8, 0x0040     # 00410000 in address space 1
        mtc0  $10, $10
        lui   $11, 0x0050
        ori   $11, $11, 0x0600
        mtc0  $11, $2             # frame 00500000, D, V
        addiu $12, $zero, 0x0200
        mtc0  $12, $0             # slot 2
        tlbwi
        addiu $13, $zero, 0x3F00
        mtc0  $13, $0             # slot 63: it matches slot 2
        tlbwi
        tlbwi                     # and goes on to
        addiu $11, $11, 0x1000
        mtc0  $11, $2             # as it does with another frame
        tlbwi
        ori   $10, $8, 0x0080
        mtc0  $10, $10            # 00410000 in address space 2
        mtc0  $zero, $0           # slot 0: it matches neither
        tlbwi
        ori   $11, $11, 0x0100
        mtc0  $11, $2             # of all address spaces: now it matches both
        tlbwi
        mtc0  $9, $10             # 00420000
        tlbwi                     # none any more
        mtc0  $10, $10
        mtc0  $zero, $2           # without V it matches by its page and its number
        mtc0  $13, $0
        tlbwi                     # slot 63 is of address space 2, as no other is
        mtc0  $zero, $0
        tlbwi                     # slot 0 is too
        tlbp
        break 1
