# A request of software is set while the processor runs ahead, in front of a branch and in a slot. It is taken
# before the next instruction begins, and its service takes it away.
start:  ori   $t0, $zero, 0x101     # Status: interrupts on, the first request of software let through
        mtc0  $t0, $12
        ori   $t1, $zero, 0x100     # Cause: the request
again:  addiu $a0, $a0, 1
        mtc0  $t1, $13
        mfc0  $v0, $13              # after the service: no request is there
        j     on
        mtc0  $t1, $13
        nop
on:     andi  $v0, $v0, 0x300
        beq   $v0, $zero, again
        nop
        j     again
        addiu $s1, $s1, 1
