# Process 1 gives a page to all processes until each has 255 or 256 entries. Then it drops its own shares by turns, the
# oldest first, and gives each to itself again. No other ever runs.
        lui   $s0, 0x0041            # the page of process 1
        addiu $s2, $zero, 1
        ori   $s3, $zero, 0x1000
        addiu $s4, $zero, 101
next:   addu  $s1, $s0, $s3          # 00411000 on
        addiu $s5, $zero, 254
fill:   addu  $a0, $s0, $zero
        addu  $a1, $s2, $zero
        addu  $a2, $s1, $zero
        addiu $a3, $zero, 1
        addiu $v0, $zero, 6
        syscall
        addiu $s5, $s5, -1
        bgtz  $s5, fill
        addu  $s1, $s1, $s3
        addiu $s2, $s2, 1
        bne   $s2, $s4, next
        nop

again:  addu  $s1, $s0, $s3
        addiu $s5, $zero, 254
loop:   addu  $a0, $s1, $zero
        addiu $v0, $zero, 8          # drop
        syscall
        addu  $a0, $s0, $zero
        addiu $a1, $zero, 1
        addu  $a2, $s1, $zero
        addiu $a3, $zero, 1
        addiu $v0, $zero, 6          # give
        syscall
        addiu $s5, $s5, -1
        bgtz  $s5, loop
        addu  $s1, $s1, $s3
        j     again
        nop
