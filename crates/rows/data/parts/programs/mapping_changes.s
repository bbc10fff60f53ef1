# Page 00410 is frame 2 and frame 3 in turn, by slots 9 and 13.
start:  lui   $t0, 0x41             # the page
        lui   $t1, 0x41
        ori   $t1, $t1, 0x40        # EntryHi: page 00410, space 1
        ori   $t2, $zero, 0x2600    # EntryLo: frame 2, dirty, valid
        ori   $t3, $zero, 0x3600    # EntryLo: frame 3
        ori   $t4, $zero, 0x900     # Index: slot 9
        mtc0  $t1, $10
        mtc0  $t4, $0
again:  mtc0  $t2, $2
        addiu $a0, $a0, 1
        tlbwi
        sw    $a0, 0($t0)           # in frame 2
        lw    $v0, 0($t0)
        mtc0  $t3, $2
        bne   $v0, $a0, wrong
        nop
        tlbwi
        sw    $zero, 0($t0)         # in frame 3
        lw    $v0, 0($t0)
        mtc0  $t2, $2
        bne   $v0, $zero, wrong
        nop
        tlbwi
        lw    $v0, 0($t0)           # in frame 2 again
        nop
        beq   $v0, $a0, again
        nop
wrong:  j     again
        addiu $s1, $s1, 1
