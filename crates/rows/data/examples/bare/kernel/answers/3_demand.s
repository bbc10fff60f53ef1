# An answer to exercise 3: a page whose entry is 0 gets the next free frame, all zeros, when it is first asked for.
        j     setup
        nop
        mfc0  $k0, $4             # these nine words go to 80000000
        mfc0  $k1, $14
        lw    $k0, 0($k0)
        nop
        mtc0  $k0, $2             # EntryLo leaves bits 7 to 0 out
        nop
        tlbwr
        jr    $k1
        rfe
        j     general             # this word goes to 80000080
        .word user
setup:  lui   $t0, 0x8000
        lui   $t1, 0x8040
        addiu $t2, $t1, 36
copy:   lw    $t3, 8($t1)
        addiu $t1, $t1, 4
        sw    $t3, 0($t0)
        bne   $t1, $t2, copy
        addiu $t0, $t0, 4
        lw    $t3, 8($t1)
        lui   $t0, 0x8000
        sw    $t3, 0x80($t0)
        lui   $t4, 0xBFE0
        addiu $t5, $zero, 0x20
        sw    $t5, 0($t4)
        addiu $t5, $zero, 1
        sw    $t5, 0x10($t4)
        lui   $t0, 0x8060
        mtc0  $t0, $4
        lui   $t5, 0x0040
        ori   $t5, $t5, 0x0200    # frame 00400000, V: may be read
        sw    $t5, 0x1000($t0)    # is page 00400000
        lui   $t5, 0x0050
        ori   $t5, $t5, 0x0201    # frame 00500000, V, and the kernel's bit 0: may be written
        sw    $t5, 0x1040($t0)    # is page 00410000
        lui   $t0, 0x8041
        addiu $t5, $t5, 0x1000
        sw    $t5, 0($t0)         # the entry of the next free frame: 00501000, V, may be written
        addiu $t5, $zero, 0x40
        mtc0  $t5, $10
        addiu $t5, $zero, 8
        mtc0  $t5, $12
        lw    $k1, 12($t1)
        nop
        jr    $k1
        rfe
general:
        mfc0  $k0, $13
        nop
        andi  $k0, $k0, 0x7C
        addiu $k0, $k0, -4
        beq   $k0, $zero, modified
        addiu $k0, $k0, -4
        beq   $k0, $zero, demand  # 2, a load or a fetch whose entry has no V
        addiu $k0, $k0, -4
        beq   $k0, $zero, demand  # 3, a store
        addiu $k0, $k0, -20
        beq   $k0, $zero, call
        mfc0  $k1, $14
refused:
        lui   $k0, 0xBFE0
        addiu $k1, $zero, 33      # ! is put
        sw    $k1, 0x18($k0)
stop:   break 1
call:   lui   $k0, 0xBFE0
        beq   $v0, $zero, stop
        addiu $k1, $k1, 4
        sw    $a0, 0x18($k0)
        jr    $k1
        rfe
demand: mfc0  $k0, $4             # Context
        lui   $k1, 0x8041
        lw    $k1, 0($k1)
        lw    $k0, 0($k0)
        nop
        bne   $k0, $zero, refused # the entry is not 0
        mfc0  $k0, $4
        mtc0  $k1, $2
        sw    $k1, 0($k0)
        lui   $k0, 0x8041
        addiu $k1, $k1, 0x1000
        sw    $k1, 0($k0)
        tlbp                      # the slot into which the refill handler has put the 0
        nop
        tlbwi
        mfc0  $k1, $14
        nop
        jr    $k1
        rfe
modified:
        mfc0  $k0, $4             # Context: the address of the page's entry, as at a miss
        nop
        lw    $k1, 0($k0)
        nop
        sll   $k1, $k1, 31        # bit 0
        beq   $k1, $zero, refused
        lw    $k1, 0($k0)
        nop
        ori   $k1, $k1, 0x0400    # D
        sw    $k1, 0($k0)         # in the table
        mtc0  $k1, $2
        tlbp                      # Index: the slot of the page that EntryHi has since the exception
        nop
        tlbwi                     # and in the buffer
        mfc0  $k1, $14
        nop
        jr    $k1                 # the store is done again
        rfe
user:   lui   $s0, 0x0041
        addiu $s1, $zero, 65
        sw    $s1, 0($s0)         # misses, then finds no D, then is done
        sw    $s1, 4($s0)         # is done at once
        lw    $a0, 4($s0)
        addiu $v0, $zero, 1
        syscall                   # A
        lui   $s0, 0x7FFF
        lw    $s2, 0($s0)         # gets a frame: 0
        addiu $a0, $s1, 1
        sw    $a0, 0x2000($s0)    # gets another, and then D
        lw    $a0, 0x2000($s0)
        addiu $v0, $zero, 1
        syscall                   # B
        lui   $s0, 0x0040
        sw    $s1, 0($s0)         # page 00400000 may not be written
        break 0
