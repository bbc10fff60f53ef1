# Pages 00400, 00412 and 00413 are frames 1, 17 and 33. What is known of the words of these frames has one place,
# so that each drives out the one before. The program calls a function of each of the others, and before that
# writes over a word of the first of these by page 00414, which is frame 17, too.
start:  lui   $t0, 0x8001
        ori   $t0, $t0, 0x1000      # frame 17 in kseg0
        lui   $t1, 0x8002
        ori   $t1, $t1, 0x1000      # frame 33
        lui   $t2, 0x3e0
        ori   $t2, $t2, 8           # jr $ra
        sw    $t2, 0($t0)
        sw    $t2, 0($t1)
        lui   $t3, 0x2482           # addiu $v0, $a0, 0
        ori   $t4, $t3, 9           # addiu $v0, $a0, 9
        sw    $t4, 4($t1)
        lui   $t5, 0x41
        ori   $t0, $t5, 0x2040      # EntryHi: page 00412, space 1
        lui   $t6, 1
        ori   $t6, $t6, 0x1600      # EntryLo: frame 17, dirty, valid
        ori   $t7, $zero, 0xd00     # Index: slot 13
        mtc0  $t0, $10
        mtc0  $t6, $2
        mtc0  $t7, $0
        nop
        tlbwi
        ori   $t0, $t5, 0x4040      # EntryHi: page 00414, space 1
        ori   $t7, $zero, 0xe00     # Index: slot 14
        mtc0  $t0, $10
        mtc0  $t7, $0
        nop
        tlbwi
        ori   $t0, $t5, 0x3040      # EntryHi: page 00413, space 1
        lui   $t6, 2
        ori   $t6, $t6, 0x1600      # EntryLo: frame 33, dirty, valid
        ori   $t7, $zero, 0xf00     # Index: slot 15
        mtc0  $t0, $10
        mtc0  $t6, $2
        mtc0  $t7, $0
        nop
        tlbwi
        ori   $t0, $t5, 0x2000      # the function of page 00412
        ori   $t1, $t5, 0x3000      # that of page 00413
        ori   $t2, $t5, 0x4000      # the first again, to be written
        ori   $t4, $zero, 2         # Status: user mode
        mtc0  $t4, $12
again:  addiu $a0, $a0, 1
        andi  $t6, $a0, 0x7fff
        or    $t4, $t3, $t6         # addiu $v0, $a0, a0
        jalr  $t0
        sw    $t4, 4($t2)           # the slot of the function that is called
        addu  $t7, $a0, $t6
        bne   $v0, $t7, wrong
        addiu $v1, $a0, 9
        jalr  $t1
        nop
        beq   $v0, $v1, again
        nop
wrong:  j     again
        addiu $s1, $s1, 1
