# Page 00411 is frame 3 and clean: it is read, and a store is refused and passed over. Page 00410, whose
# frame is 3 too for a while, is written.
start:  lui   $t0, 0x41
        ori   $t0, $t0, 0x1000      # the clean page
        lui   $t1, 0x41
        ori   $t1, $t1, 0x40        # EntryHi: page 00410, space 1
        ori   $t2, $zero, 0x3600    # EntryLo: frame 3, dirty, valid
        ori   $t4, $zero, 0x900     # Index: slot 9
        mtc0  $t1, $10
        mtc0  $t4, $0
        mtc0  $t2, $2
        nop
        tlbwi
        lui   $t5, 0x41             # the page that may be written
again:  addiu $a0, $a0, 1
        sw    $a0, 0($t5)
        lw    $v0, 0($t0)
        sw    $zero, 0($t0)         # refused
        lw    $v1, 0($t0)
        bne   $v0, $a0, wrong
        nop
        beq   $v1, $a0, again
        nop
wrong:  j     again
        addiu $s1, $s1, 1
