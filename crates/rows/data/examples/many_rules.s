# A process with code, constants, data and a stack in pages of their own. It calls itself more often than its stack has room
# for, and runs into the guard page.

        lui   $sp, 0x8000            # the stack begins below 80000000
        lui   $s0, 0x1000            # $s0 = 10000000: constants, and data after them
        lw    $s1, 0($s0)            # how deep
        lui   $s2, 0x1010            # $s2 = 10100000: the first page of data, for reading alone
        jal   down                   # on the second page of code
        nop
        addiu $v0, $zero, 0
        syscall
        .space 4064                  # up to 00401000

down:   addiu $sp, $sp, -1024        # room for so much on the stack: eight times in its two pages
        sw    $ra, 0($sp)            # at 00401004: denied in the ninth call
        lw    $t0, 0($s2)            # how deep we are, by one address
        nop
        addiu $t0, $t0, 1
        sw    $t0, 4096($s0)         # and by the other: it is the same page
        addiu $a0, $t0, 48
        addiu $v0, $zero, 1
        syscall
        beq   $t0, $s1, up
        nop
        jal   down
        nop
up:     lw    $ra, 0($sp)
        addiu $sp, $sp, 1024
        jr    $ra
        nop
        .space 4028                  # up to the third part

        .word 12                     # with 8 it comes back, and exits
