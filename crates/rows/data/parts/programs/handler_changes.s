# Frame 0, where handlers of exceptions are, is page 00412 of users. Kernel mode writes over a word there, as a handler
# may that changes handlers, and user mode runs it.
start:  lui   $t0, 0x8000           # frame 0 in kseg0
        lui   $t2, 0x3e0
        ori   $t2, $t2, 8           # jr $ra
        sw    $t2, 0x100($t0)
        lui   $t3, 0x2482           # addiu $v0, $a0, 0
        lui   $t1, 0x41
        ori   $t4, $t1, 0x2040      # EntryHi: page 00412, space 1
        ori   $t5, $zero, 0x200     # EntryLo: frame 0, valid
        ori   $t6, $zero, 0xd00     # Index: slot 13
        mtc0  $t4, $10
        mtc0  $t5, $2
        mtc0  $t6, $0
        nop
        tlbwi
        ori   $t1, $t1, 0x2100      # the function
        lui   $t2, 0x1000
        ori   $t2, $t2, 2           # Status: user mode, and coprocessor 0 may be used
again:  addiu $a0, $a0, 1
        andi  $t6, $a0, 0x7fff
        or    $t4, $t3, $t6         # addiu $v0, $a0, a0
        sw    $t4, 0x104($t0)       # its slot
        mtc0  $t2, $12              # to user mode
        addu  $t7, $a0, $t6
        jalr  $t1
        nop
        bne   $v0, $t7, wrong
        nop
        jalr  $t1
        addiu $v0, $zero, 0
        mtc0  $zero, $12            # to kernel mode
        beq   $v0, $t7, again
        nop
wrong:  mtc0  $zero, $12
        j     again
        addiu $s1, $s1, 1
