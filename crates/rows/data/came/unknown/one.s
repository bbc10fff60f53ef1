# Three calls of numbers that are no call, between others, and the end.
        addiu $2,$0,5
        syscall
        addiu $2,$0,10
        syscall
        addiu $2,$0,4
        syscall
        addiu $2,$0,-1
        syscall
        addiu $2,$0,3
        syscall
        addiu $2,$0,77
        syscall
        addiu $2,$0,0
        syscall
