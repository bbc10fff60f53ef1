# Adds up over its own page of data, and never yields.
start:  lui   $t0, 0x0041
        addiu $t1, $t0, 2048
loop:   lw    $t2, 0($t0)
        addu  $t3, $t3, $t0
        addiu $t2, $t2, 1
        sll   $t4, $t3, 3
        xor   $t3, $t3, $t4
        sw    $t2, 0($t0)
        addiu $t0, $t0, 4
        bne   $t0, $t1, loop
        nop
        j     start
        nop
