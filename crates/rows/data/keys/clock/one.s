# Yields, and puts a full stop every four ticks.
        addiu $v0,$zero,3
        syscall
        addiu $a0,$zero,46
        nop
loop:   addiu $v0,$zero,1       # at 6, 10, .., 30
        syscall
        beq   $zero,$zero,loop
        nop
