# Loads from a page, which is granted, and stores to it, which is not until an operator grants it.

        lui   $t0, 0x0041            # $t0 = 00410000, the page `data`
        lw    $t1, 0($t0)            # granted
        addiu $a0, $zero, 76         # L: the load is done
        addiu $v0, $zero, 1
        syscall
        sw    $t1, 8($t0)            # at 00400014: denied, and the process is parked here; resumed, it does this again
        addiu $a0, $zero, 83         # S: the store is done
        addiu $v0, $zero, 1
        syscall
        addiu $v0, $zero, 0
        syscall
