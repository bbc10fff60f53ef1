# The first process lends its page to the second. At the time that the policy says, both lose it.

        lui   $s0, 0x0041            # process 1: its page is at 00410000
        addiu $t0, $zero, 97         # a
        sb    $t0, 0($s0)
        addu  $a0, $s0, $zero        # 6 is the call `give`: this page of mine,
        addiu $a1, $zero, 2          # to process 2,
        addu  $a2, $s0, $zero        # at the same address there,
        addiu $a3, $zero, 1          # shared for reading
        addiu $v0, $zero, 6
        syscall
again:  lbu   $t0, 0($s0)            # at 00400024
        addiu $v0, $zero, 3          # yield
        syscall
        j     again
        nop

        lui   $s0, 0x0041            # process 2, at 00400038
look:   lbu   $a0, 0($s0)            # at 0040003C
        addiu $v0, $zero, 1
        syscall                      # puts a
        addiu $v0, $zero, 3          # yield
        syscall
        j     look
        nop
