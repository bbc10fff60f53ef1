# Page 00410 is frame 2 in address space 1, and frame 4 in address space 2.
start:  lui   $t0, 0x41             # the page
        ori   $t1, $zero, 0x40      # EntryHi: space 1
        ori   $t2, $zero, 0x80      # EntryHi: space 2
again:  addiu $a0, $a0, 1
        sw    $a0, 0($t0)
        mtc0  $t2, $10
        lw    $v0, 0($t0)           # what was stored in space 2 in the turn before
        addiu $v1, $a0, 99
        bne   $v0, $v1, first
        sw    $zero, 0($t0)
back:   addiu $v1, $a0, 100
        sw    $v1, 0($t0)
        mtc0  $t1, $10
        lw    $v0, 0($t0)
        nop
        beq   $v0, $a0, again
        nop
wrong:  j     again
        addiu $s1, $s1, 1
first:  addiu $v1, $zero, 1
        beq   $a0, $v1, back        # there was no turn before
        nop
        j     back
        addiu $s1, $s1, 1
