# Adds up over sixteen pages of data, a word of each in turn, $s0 times. The pages begin at $s1.
again:  addiu $t9, $zero, 1024
        addu  $t0, $s1, $zero
word:   addiu $t8, $zero, 16
        addu  $t1, $t0, $zero
page:   lw    $t2, 0($t1)
        addiu $t8, $t8, -1
        addu  $t3, $t3, $t2
        sw    $t3, 0($t1)
        bne   $t8, $zero, page
        addiu $t1, $t1, 4096
        addiu $t9, $t9, -1
        bne   $t9, $zero, word
        addiu $t0, $t0, 4
        addiu $s0, $s0, -1
        bne   $s0, $zero, again
        nop
