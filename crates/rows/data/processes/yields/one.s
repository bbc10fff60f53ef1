# Puts its number and yields, five times.
        addiu $v0,$zero,5
        syscall
        addiu $s0,$v0,48
        addiu $s1,$zero,5
loop:   addu  $a0,$s0,$zero
        addiu $v0,$zero,1
        syscall
        addiu $v0,$zero,3
        syscall
        addu  $s2,$s2,$v0       # yield answers 0
        addiu $s1,$s1,-1
        bne   $s1,$zero,loop
        nop
        addiu $a0,$s2,46        # a full stop
        addiu $v0,$zero,1
        syscall
        addiu $v0,$zero,0
        syscall
