# Puts what the first process stored, three times; its own page at the same address as the other's stays apart.
        lui   $t0,0x7FFF
        ori   $t0,$t0,0xF000
        lui   $t1,0x41
        addiu $t3,$zero,3
loop:   lbu   $a0,1000($t0)
        addiu $v0,$zero,1
        syscall
        lbu   $a0,1000($t1)     # 0 at first, then what it stored itself
        addiu $t4,$zero,48
        addu  $a0,$a0,$t4
        addiu $v0,$zero,1
        syscall
        sb    $t3,1000($t1)
        addiu $v0,$zero,3
        syscall
        addiu $t3,$t3,-1
        bne   $t3,$zero,loop
        nop
        sb    $t3,1000($t0)     # denied
        addiu $v0,$zero,1
        syscall
