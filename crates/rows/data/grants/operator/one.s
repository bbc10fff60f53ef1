# Stores a letter, gives the other process a copy, and puts what give answers; again when a character comes, until it is x.
        lui   $s0,0x41
        addiu $s1,$zero,97
next:   sb    $s1,0($s0)
        addu  $a0,$s0,$zero
        addiu $a1,$zero,2
        addu  $a2,$s0,$zero
        addiu $a3,$zero,3
        addiu $v0,$zero,6
        syscall
        addiu $a0,$v0,48
        addiu $v0,$zero,1
        syscall
        addiu $s1,$s1,1
        addiu $v0,$zero,9
        syscall
        addiu $v0,$zero,2
        syscall
        addiu $t0,$v0,-120
        bne   $t0,$zero,next
        nop
        addiu $v0,$zero,0
        syscall
