# Counts its rounds in its page, and puts its number in each, for ever.

        addiu $v0, $zero, 5          # 5 is the call `self`: the number of the process
        syscall
        addiu $s1, $v0, 48           # the digit
        lui   $s0, 0x0041            # its page
loop:   lw    $t0, 0($s0)            # at 00400010
        addu  $a0, $s1, $zero
        addiu $t0, $t0, 1
        sw    $t0, 0($s0)            # at 0040001C
        addiu $v0, $zero, 1          # put
        syscall
        j     loop                   # eight ticks in all
        nop
