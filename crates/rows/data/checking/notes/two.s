        nop
        .space 4092
deep:   addiu $2,$0,0
        syscall
