# Takes the page of its code, which it did not give: 19, put as C.
        addiu $4,$0,1
        lui   $5,0x40
        addiu $2,$0,7
        syscall
        addiu $4,$2,48
        addiu $2,$0,1
        syscall
        addiu $2,$0,0
        syscall
