# Process 1 yields for ever. Process 2 stores the letters a to e in turn, loads each and puts it, and yields behind each.
first:  addiu $v0,$zero,3
        syscall
        beq   $zero,$zero,first
        nop
        nop
        lui   $t0,0x41          # process 2, from 00400014
        addiu $s1,$zero,97
        addiu $s2,$zero,102
next:   sb    $s1,0($t0)
        lbu   $a0,0($t0)
        addiu $v0,$zero,1
        syscall
        addiu $v0,$zero,3
        syscall
        addiu $s1,$s1,1
        bne   $s1,$s2,next
        nop
        addiu $v0,$zero,0
        syscall
