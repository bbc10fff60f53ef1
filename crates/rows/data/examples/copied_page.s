# The first process writes a word into a page, gives the second process a copy, and tries to give another. Then each changes
# the word that it has, and puts it.

        lui   $s0, 0x0041            # process 1: its page is at 00410000
        lui   $t0, 0x0040
        lw    $t1, 252($t0)          # the word after the code
        addu  $a0, $s0, $zero        # 6 is the call `give`: which page of mine,
        sw    $t1, 0($s0)
        addiu $a1, $zero, 2          # to which process,
        addu  $a2, $s0, $zero        # at which address there,
        addiu $a3, $zero, 3          # and how: 3 is a copy
        addiu $v0, $zero, 6
        syscall                      # 0: it is given
        lui   $a2, 0x0042            # another copy, at another address
        addiu $v0, $zero, 6
        syscall                      # at 00400030: 18, there is no frame for it
        addiu $t0, $zero, 103        # g
        sb    $t0, 0($s0)
        addiu $v0, $zero, 3          # yield
        syscall
        jal   show
        nop
        addiu $v0, $zero, 0
        syscall
        .space 44                    # up to 00400080

        lui   $s0, 0x0041            # process 2: its copy is at 00410000 too
        jal   show                   # what it was given
        nop
        addiu $t0, $zero, 114        # r
        sb    $t0, 3($s0)
        addiu $a0, $zero, 44         # a comma between the two
        addiu $v0, $zero, 1
        syscall
        jal   show
        nop
        addiu $v0, $zero, 0
        syscall

show:   addiu $t3, $s0, 4            # puts the four letters at $s0
        addu  $t2, $s0, $zero
letter: lbu   $a0, 0($t2)
        addiu $t2, $t2, 1
        addiu $v0, $zero, 1
        syscall
        bne   $t2, $t3, letter
        nop
        jr    $ra
        nop
        .space 36                    # up to 004000FC
        .byte 98                     # blue
        .byte 108
        .byte 117
        .byte 101
