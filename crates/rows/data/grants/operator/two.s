# Puts what the page has when a character comes, and stores a full stop there.
        lui   $s0,0x41
        addiu $t0,$zero,46
next:   addiu $v0,$zero,9
        syscall
        addiu $v0,$zero,2
        syscall
        lbu   $a0,0($s0)
        addiu $v0,$zero,1
        syscall
        sb    $t0,0($s0)
        beq   $zero,$zero,next
        nop
