# Stores a, b and c in turn, and yields behind each; then puts a full stop.
        lui   $t0,0x41
        addiu $t1,$zero,97
        addiu $t2,$zero,100
loop:   sb    $t1,1000($t0)
        addiu $v0,$zero,3
        syscall
        addiu $t1,$t1,1
        bne   $t1,$t2,loop
        nop
        lbu   $a0,1000($t0)     # still its own c, not the other's page
        addiu $v0,$zero,1
        syscall
        addiu $a0,$zero,46
        addiu $v0,$zero,1
        syscall
        addiu $v0,$zero,0
        syscall
