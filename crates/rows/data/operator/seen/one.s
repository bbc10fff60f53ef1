# Process 1 stores the letters from a on, and yields behind each. Process 2 puts what is there, and yields.
        lui   $t0,0x41
        addiu $t1,$zero,97
store:  sb    $t1,0($t0)
        addiu $t1,$t1,1
        addiu $v0,$zero,3
        syscall
        j     store
        nop
        lui   $t0,0x42          # process 2, from 00400020
show:   lbu   $a0,0($t0)
        addiu $v0,$zero,1
        syscall
        addiu $v0,$zero,3
        syscall
        j     show
        nop
