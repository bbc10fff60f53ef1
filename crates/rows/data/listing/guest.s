start:  addiu $2,$0,1   # put
        addiu $4,$0,65
        syscall
text:   .byte 0x41
        .space 3

        j start
        nop
