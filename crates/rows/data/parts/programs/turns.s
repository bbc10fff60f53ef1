# Each two operations that a run does in one turn, and each branch and jump that it does with its slot:
# from their first, and from their second, to which a jump leads. What both leave is added up.
start:  lui   $t0, 0x41             # the page of data
        addiu $s0, $zero, 1         # from which of the two it goes
        addu  $s2, $zero, $zero     # the sum
again:  addiu $t1, $zero, 1000
        addiu $t2, $zero, 77
        bne   $s0, $zero, second
        nop
        j     first
        addiu $t3, $zero, 5
second: j     into
        or    $t3, $t1, $zero
first:  addu  $t4, $t1, $t2
into:   addu  $t5, $t4, $t2
        addiu $t6, $t5, 3
        addu  $t4, $t6, $t1
        addiu $t5, $t4, 9
        addiu $t6, $t5, 9
        sll   $t4, $t6, 3
        addu  $t5, $t4, $t6
        sll   $t6, $t5, 2
        xor   $t4, $t6, $t5
        srl   $t5, $t4, 4
        addu  $t6, $t5, $t4
        sltu  $t4, $t6, $t5
        lui   $t5, 0x1234
        ori   $t6, $t5, 0x5678
        lui   $t4, 0x7fff
        addiu $t5, $t4, 1
        sw    $t6, 0($t0)
        sw    $t5, 4($t0)
        lw    $t4, 0($t0)
        nop
        lw    $t5, 4($t0)
        addiu $t6, $t4, 1
        lw    $t4, 4($t0)
        addu  $t5, $t5, $t6
        lw    $t6, 0($t0)
        lw    $t4, 4($t0)           # the load before is late here
        addiu $t5, $t5, 1
        lw    $t3, 0($t0)
        addu  $t5, $t5, $t6
        lw    $t6, 4($t0)
        addu  $t5, $t5, $t4
        sw    $t5, 8($t0)
        addiu $t5, $t5, 1
        sw    $t5, 12($t0)
        addiu $t5, $t5, 1
        sw    $t5, 16($t0)
        sw    $t6, 20($t0)
        lw    $t4, 16($t0)
        lw    $t4, 20($t0)          # the same register twice: the second is late
        addu  $s2, $s2, $t3
        addu  $s2, $s2, $t4
        beq   $t3, $t4, one
        nop
        beq   $zero, $zero, one
        addiu $s2, $s2, 1
        addiu $s2, $s2, 100
one:    beq   $t4, $t4, two
        addu  $s2, $s2, $t4
        addiu $s2, $s2, 100
two:    beq   $t4, $t4, three
        or    $s2, $s2, $t4
        addiu $s2, $s2, 100
three:  bne   $t4, $zero, four
        nop
        addiu $s2, $s2, 100
four:   bne   $t4, $t4, five
        addiu $s2, $s2, 1
        bne   $t0, $zero, five
        addu  $s2, $s2, $t0
        addiu $s2, $s2, 100
five:   bne   $t0, $zero, six
        or    $s2, $s2, $t0
        addiu $s2, $s2, 100
six:    jal   leaf
        nop
        jal   leaf
        addiu $s2, $s2, 7
        jal   other
        nop
        jal   last
        nop
        j     seven                 # into the middle of a branch with its slot, past the branch
        nop
        bne   $t0, $zero, never
seven:  addiu $s2, $s2, 1
        j     eight                 # and of two operations
        addiu $t4, $zero, 3
        addu  $t4, $t4, $t4
eight:  addu  $t5, $t4, $s2
        sw    $t5, 24($t0)
        j     again
        xori  $s0, $s0, 1
never:  addiu $s1, $s1, 1           # this comes out wrong
        j     again
        nop
leaf:   jr    $ra
        nop
other:  jr    $ra
        addiu $s2, $s2, 11
last:   jr    $ra
        addu  $s2, $s2, $t4
