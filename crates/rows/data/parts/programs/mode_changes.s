# The same places are read in kernel and in user mode: page 00410 is the same in both, and kseg0 is not
# for users. A load that is refused is passed over, and leaves its register.
start:  lui   $t0, 0x41             # the page
        lui   $t1, 0x8000
        ori   $t1, $t1, 0x2000      # the same frame in kseg0
        ori   $t2, $zero, 2         # Status: user mode
        lui   $t3, 0x1000
        ori   $t2, $t2, 0
        or    $t2, $t2, $t3         # and coprocessor 0 may be used
again:  addiu $a0, $a0, 1
        sw    $a0, 0($t0)
        lw    $v0, 0($t1)
        mtc0  $t2, $12              # to user mode
        bne   $v0, $a0, wrong
        addiu $v1, $zero, 7
        lw    $v1, 0($t1)           # refused
        nop
        lw    $v0, 0($t0)
        mtc0  $zero, $12            # to kernel mode
        bne   $v0, $a0, wrong
        addiu $v0, $zero, 7
        beq   $v1, $v0, again
        nop
wrong:  mtc0  $zero, $12
        j     again
        addiu $s1, $s1, 1
