# The first process shares its page with the second, and the second shares it on with the third. Then the first takes back
# what it gave to the second, and both are denied.

        lui   $s0, 0x0041            # process 1: its page is at 00410000
        addiu $t0, $zero, 97         # a
        sb    $t0, 0($s0)
        addu  $a0, $s0, $zero        # 6 is the call `give`: this page of mine,
        addiu $a1, $zero, 2          # to process 2,
        addu  $a2, $s0, $zero        # at the same address there,
        addiu $a3, $zero, 2          # shared for writing
        addiu $v0, $zero, 6
        syscall
        addiu $v0, $zero, 3          # yield
        syscall
        addiu $a0, $zero, 2          # 7 is the call `take`: what process 2 has
        addu  $a1, $s0, $zero        # at this address
        addiu $v0, $zero, 7
        syscall
        addiu $a0, $v0, 48           # puts what it answers
        addiu $v0, $zero, 1
        syscall
        addiu $v0, $zero, 0
        syscall

        lui   $a0, 0x0041            # process 2, at 00400050
        addiu $a1, $zero, 3
        lui   $a2, 0x0050            # it gives process 3 the page at 00500000,
        addiu $a3, $zero, 1          # shared for reading
        addiu $v0, $zero, 6
        syscall
        addiu $v0, $zero, 3          # at 00400068: yield
        syscall
        lui   $s0, 0x0041
        lbu   $a0, 0($s0)            # at 00400074: it has no page there any more
        addiu $v0, $zero, 1
        syscall

        lui   $s0, 0x0050            # process 3, at 00400080
look:   lbu   $a0, 0($s0)            # at 00400084: the second time it has no page there
        addiu $v0, $zero, 1
        syscall                      # puts a
        addiu $v0, $zero, 3
        syscall
        j     look
        nop
