start:
        addiu $4,$0,46
loop:
        addiu $2,$0,1
        syscall
        j loop
        nop
