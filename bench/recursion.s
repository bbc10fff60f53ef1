# The fifteenth Fibonacci number by recursion, $s0 times. The stack ends 4,096 bytes above $s1.
        addiu $sp, $s1, 4096
again:  jal   fibonacci
        addiu $a0, $zero, 15
        addiu $s0, $s0, -1
        bne   $s0, $zero, again
        nop
        j     end
        nop
fibonacci:
        slti  $t0, $a0, 2
        bne   $t0, $zero, least
        addu  $v0, $a0, $zero
        addiu $sp, $sp, -12
        sw    $ra, 0($sp)
        sw    $a0, 4($sp)
        jal   fibonacci
        addiu $a0, $a0, -1
        sw    $v0, 8($sp)
        lw    $a0, 4($sp)
        nop
        jal   fibonacci
        addiu $a0, $a0, -2
        lw    $t0, 8($sp)
        lw    $ra, 0($sp)
        addiu $sp, $sp, 12
        jr    $ra
        addu  $v0, $v0, $t0
least:  jr    $ra
        nop
end:
