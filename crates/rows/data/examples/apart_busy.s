# A neighbour that stores where the other does, yields, puts a letter, and is denied a load.

start:  lui   $t0, 0x0041
        addiu $t1, $zero, 90
        sw    $t1, 0($t0)            # Z, in a page of its own
        addiu $v0, $zero, 3
        syscall
        addiu $a0, $zero, 90
        addiu $v0, $zero, 1
        syscall
        lw    $t1, 0($zero)          # nothing is granted there
