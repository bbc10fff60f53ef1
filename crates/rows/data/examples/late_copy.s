# The first process stores a letter, gives the second a copy of its page, stores another letter, and gives the third a copy.
# The second puts what it was given, and stores a letter of its own. The third only puts.

        lui   $s0, 0x0041            # process 1: its page, page 1, is at 00410000
        addiu $t0, $zero, 97         # a
        sb    $t0, 0($s0)
        addu  $a0, $s0, $zero        # 6 is the call `give`: this page of mine,
        addiu $a1, $zero, 2          # to process 2,
        addu  $a2, $s0, $zero        # at the same address there,
        addiu $a3, $zero, 3          # as a copy
        addiu $v0, $zero, 6
        syscall                      # page 2 is made
        addiu $t0, $zero, 98         # b
        sb    $t0, 0($s0)            # at 00400028: the first store after the copy
        addiu $a1, $zero, 3          # and another copy, to process 3
        addiu $v0, $zero, 6
        syscall                      # page 3 is made
        addiu $v0, $zero, 3          # yield
        syscall
        lbu   $a0, 0($s0)
        addiu $v0, $zero, 1
        syscall                      # puts b
        addiu $v0, $zero, 0
        syscall

        lui   $s0, 0x0041            # process 2, at 00400054
        lbu   $a0, 0($s0)
        addiu $v0, $zero, 1
        syscall                      # puts a
        addiu $t0, $zero, 99         # c
        sb    $t0, 0($s0)            # at 00400068: its first store
        lbu   $a0, 0($s0)
        addiu $v0, $zero, 1
        syscall                      # puts c
        addiu $v0, $zero, 0
        syscall

        lui   $s0, 0x0041            # process 3, at 00400080
        lbu   $a0, 0($s0)
        addiu $v0, $zero, 1
        syscall                      # puts b
        addiu $v0, $zero, 0
        syscall
