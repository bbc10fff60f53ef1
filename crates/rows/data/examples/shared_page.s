# The producer puts what is typed into a page, and the consumer takes it from there and puts it on its own line. In the
# page are two counts, of what was put in and of what was taken out, and a ring of four characters after them.

        lui   $s0, 0x0041            # the producer: the page is at 00410000
        addu  $a0, $s0, $zero        # 6 is the call `give`: which page of mine,
        addiu $a1, $zero, 2          # to which process,
        lui   $a2, 0x0050            # at which address there,
        addiu $a3, $zero, 2          # and how: 1 share it for reading, 2 share it for writing, 3 give a copy
        addiu $v0, $zero, 6
        syscall
sleep:  addiu $v0, $zero, 9          # wait for a character
        syscall
typed:  addiu $v0, $zero, 2          # take it
        syscall
        bltz  $v0, sleep
        addu  $s1, $v0, $zero
full:   lw    $t0, 0($s0)            # how many were put in
        lw    $t1, 4($s0)            # how many were taken out
        addiu $v0, $zero, 3          # 3 is the call `yield`
        subu  $t2, $t0, $t1
        addiu $t2, $t2, -4
        bne   $t2, $zero, room
        andi  $t2, $t0, 3            # in the slot: the place in the ring
        syscall                      # four are in it: the consumer's turn
        j     full
        nop
room:   addu  $t2, $s0, $t2
        sb    $s1, 8($t2)
        addiu $t0, $t0, 1
        sw    $t0, 0($s0)
        addiu $t1, $s1, -46
        bne   $t1, $zero, typed
        nop
        addiu $v0, $zero, 0          # after a full stop the producer exits: what it gave stays
        syscall
        .space 128                   # up to 00400100

        lui   $s0, 0x0050            # the consumer: the same page is at 00500000
empty:  lw    $t0, 0($s0)
        lw    $t1, 4($s0)
        addiu $v0, $zero, 3
        bne   $t0, $t1, some
        andi  $t2, $t1, 3
        syscall                      # nothing is in it: the producer's turn
        j     empty
        nop
some:   addu  $t2, $s0, $t2
        lbu   $a0, 8($t2)
        addiu $t1, $t1, 1
        sw    $t1, 4($s0)
        addiu $v0, $zero, 1
        syscall
        addiu $t2, $a0, -46
        bne   $t2, $zero, empty
        addiu $v0, $zero, 0
        syscall
