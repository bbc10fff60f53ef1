# Two processes hit a ball to and fro: the first puts `ping`, the second `pong`, and after each word it yields.
#
# Registers are a process's own: each has its letter in $s1. The page at 00410000 is one page for both. There
# stands how many strokes are still to come.

ping:   lui   $s0, 0x0041            # process 1 begins here, at 00400000
        addiu $t0, $zero, 6
        sw    $t0, 0($s0)            # six strokes
        j     play
        addiu $s1, $zero, 105        # in the slot: i
        .space 12                    # up to 00400020

pong:   lui   $s0, 0x0041            # process 2 begins here
        addiu $s1, $zero, 111        # o

play:   lw    $t0, 0($s0)
        nop                          # the word comes late
        beq   $t0, $zero, exit       # no stroke is left
        addiu $t0, $t0, -1           # the slot: one less, for the other to see
        sw    $t0, 0($s0)
        addiu $a0, $zero, 112        # p
        addiu $v0, $zero, 1          # 1 is the call `put`
        syscall
        addu  $a0, $s1, $zero        # i or o
        addiu $v0, $zero, 1
        syscall
        addiu $a0, $zero, 110        # n
        addiu $v0, $zero, 1
        syscall
        addiu $a0, $zero, 103        # g
        addiu $v0, $zero, 1
        syscall
        addiu $a0, $zero, 10         # the end of the line
        addiu $v0, $zero, 1
        syscall
        addiu $v0, $zero, 3          # 3 is the call `yield`: the other one goes on
        syscall
        j     play
        nop
exit:   addiu $v0, $zero, 0          # 0 is the call `exit`
        syscall
