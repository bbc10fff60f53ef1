# The program writes over one of its own words between two executions of it.
start:  lui   $t0, 0x40             # this page
        lui   $t1, 0x2402           # addiu $v0, $zero, 0
        addiu $a0, $zero, 0
again:  andi  $t2, $a0, 0x7fff
        or    $t3, $t1, $t2         # addiu $v0, $zero, a0
        sw    $t3, 28($t0)
        nop
patch:  addiu $v0, $zero, 7         # at 0040001C
        beq   $v0, $t2, right
        nop
        addiu $s1, $s1, 1
right:  j     again
        addiu $a0, $a0, 1
