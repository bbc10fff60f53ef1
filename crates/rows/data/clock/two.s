# Puts its number every four ticks.
        addiu $v0,$zero,5
        syscall
        addiu $a0,$v0,48
loop:   addiu $v0,$zero,1
        syscall
        beq   $zero,$zero,loop
        nop
