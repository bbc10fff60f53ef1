# The sums and shifts of arithmetic.s, $s0 times a thousand.
again:  addiu $t0, $zero, 1000
        lui   $t2, 0x9E37
        ori   $t2, $t2, 0x79B9
loop:   addu  $t1, $t1, $t2
        sll   $t3, $t1, 5
        xor   $t1, $t1, $t3
        srl   $t3, $t1, 7
        addu  $t1, $t1, $t3
        sltu  $t4, $t1, $t2
        addu  $t5, $t5, $t4
        addiu $t0, $t0, -1
        bne   $t0, $zero, loop
        nor   $t6, $t1, $t5
        addiu $s0, $s0, -1
        bne   $s0, $zero, again
        nop
