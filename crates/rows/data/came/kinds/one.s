# Thirteen programs, at each 64th byte: what stops each of them is something else.
# Process 1, at 00400000: it is parked by a store where its rule grants reading alone.
        lui   $8,0x0041
        sw    $8,4($8)
        .space 56
# Process 2, at 00400040: it ends.
        addiu $2,$0,0
        syscall
        .space 56
# Process 3, at 00400080: it is parked by a store where it has no entry.
        sb    $0,1($0)
        .space 60
# Process 4, at 004000C0: it is parked by a load where its rule grants nothing.
        lui   $8,0x0042
        lhu   $9,2($8)
        .space 56
# Process 5, at 00400100: it is parked by a fetch where it has no entry.
        lui   $8,0x0050
        jr    $8
        nop
        .space 52
# Process 6, at 00400140: it is parked by a `break`.
        nop
        break
        .space 56
# Process 7, at 00400180: it is parked by a load from the kernel's addresses.
        lui   $8,0x8000
        lw    $9,0($8)
        .space 56
# Process 8, at 004001C0: it is parked by a word at no multiple of four.
        lui   $8,0x0041
        lw    $9,2($8)
        .space 56
# Process 9, at 00400200: it gives what it may not give on, is refused, and ends.
        lui   $4,0x0041
        addiu $5,$0,1
        lui   $6,0x0043
        addiu $7,$0,1
        addiu $2,$0,6
        syscall
        addiu $2,$0,0
        syscall
        .space 32
# Process 10, at 00400240: it is refused as well, and then parked by a store where its rule grants nothing.
        lui   $4,0x0041
        addiu $5,$0,1
        lui   $6,0x0043
        addiu $7,$0,1
        addiu $2,$0,6
        syscall
        lui   $8,0x0042
        sh    $9,0($8)
        .space 32
# Process 11, at 00400280: it is parked by a sum past the end of the signed numbers.
        lui   $8,0x7FFF
        add   $9,$8,$8
        .space 56
# Process 12, at 004002C0: it waits for a character.
        addiu $2,$0,9
        syscall
        .space 56
# Process 13, at 00400300: it is parked by a jump to no multiple of four.
        addiu $8,$0,6
        jr    $8
        nop
