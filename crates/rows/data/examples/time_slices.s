# Puts its own number every eight ticks, for ever. It never yields: what others get to do, the clock gives them.

        addiu $v0, $zero, 5          # 5 is the call `self`: the number of the process
        syscall
        addiu $s0, $v0, 48           # the digit
loop:   addu  $a0, $s0, $zero        # 1 tick
        addiu $v0, $zero, 1          # 1
        syscall                      # 1: put
        nop                          # 3
        nop
        nop
        j     loop                   # 2, with the slot: 8 in all
        nop
