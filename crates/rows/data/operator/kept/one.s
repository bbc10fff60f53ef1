# Stores K to 00410000, waits for a character, loads from there, and puts what it has.
        lui   $t0,0x41
        addiu $t1,$zero,75
        sb    $t1,8($t0)
        addiu $v0,$zero,9
        syscall
        lbu   $a0,8($t0)
        addiu $v0,$zero,1
        syscall
        addiu $v0,$zero,0
        syscall
