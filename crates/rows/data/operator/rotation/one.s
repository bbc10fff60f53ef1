# Loads from 00000000, and puts its number for ever.
        lw    $t0,0($zero)
        addiu $v0,$zero,5
        syscall
        addiu $s0,$v0,48
loop:   addu  $a0,$s0,$zero
        addiu $v0,$zero,1
        syscall
        beq   $zero,$zero,loop
        nop
