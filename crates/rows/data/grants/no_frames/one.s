# Gives itself a copy; a second one is refused by 18; drops the first, and now there is room. It puts B for 18 and 0.
        lui   $8,0x41
        addu  $4,$8,$0
        addiu $5,$0,1
        addiu $7,$0,3
        addiu $6,$8,0x1000
        addiu $2,$0,6
        syscall
        addiu $6,$8,0x2000
        addiu $2,$0,6
        syscall
        addiu $16,$2,48
        addiu $4,$8,0x1000
        addiu $2,$0,8
        syscall
        addu  $4,$8,$0
        addiu $2,$0,6
        syscall
        addiu $17,$2,48
        addu  $4,$16,$0
        addiu $2,$0,1
        syscall
        addu  $4,$17,$0
        addiu $2,$0,1
        syscall
        addiu $2,$0,0
        syscall
