# Stores to what it was given, puts what is there, and yields, over and over.
        lui   $t0,0x41
        addiu $t1,$zero,97
next:   sb    $t1,0($t0)
        lbu   $a0,0($t0)
        addiu $v0,$zero,1
        syscall
        addiu $t1,$t1,1
        addiu $v0,$zero,3
        syscall
        beq   $zero,$zero,next
        nop
