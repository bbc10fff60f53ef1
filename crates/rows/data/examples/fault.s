# Adds one to the greatest signed number, twice.

        lui   $t0, 0x7FFF
        ori   $t0, $t0, 0xFFFF       # $t0 = 7FFFFFFF
        addiu $t1, $t0, 1            # wraps: $t1 = 80000000
        addi  $t2, $t0, 1            # stops: a sum past the end is fault 12 here, at 0040000C
        addiu $v0, $zero, 0          # the process is parked, so it never comes here
        syscall
