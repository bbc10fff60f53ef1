# A copy is copied, and then taken back, before its copy is stored to.
p1:
        lui   $8,0x41
        ori   $8,$8,0x0
        addiu $9,$0,97
        sb    $9,0($8)
        lui   $4,0x41
        ori   $4,$4,0x0
        addiu $5,$0,2
        lui   $6,0x41
        ori   $6,$6,0x0
        addiu $7,$0,3
        addiu $2,$0,6
        syscall
        addiu $2,$0,3
        syscall
        addiu $4,$0,2
        lui   $5,0x41
        ori   $5,$5,0x0
        addiu $2,$0,7
        syscall
        addiu $4,$2,48
        addiu $2,$0,1
        syscall
        addiu $2,$0,3
        syscall
        lui   $8,0x41
        ori   $8,$8,0x0
        lbu   $4,0($8)
        addiu $2,$0,1
        syscall
        addiu $2,$0,0
        syscall
p2:
        lui   $8,0x41
        ori   $8,$8,0x0
        addiu $9,$0,98
        sb    $9,0($8)
        lui   $4,0x41
        ori   $4,$4,0x0
        addiu $5,$0,3
        lui   $6,0x41
        ori   $6,$6,0x0
        addiu $7,$0,3
        addiu $2,$0,6
        syscall
        addiu $2,$0,3
        syscall
        lui   $8,0x41
        ori   $8,$8,0x0
        lbu   $4,0($8)
        addiu $2,$0,1
        syscall
        addiu $2,$0,0
        syscall
p3:
        lui   $8,0x41
        ori   $8,$8,0x0
        lbu   $4,0($8)
        addiu $2,$0,1
        syscall
        addiu $2,$0,3
        syscall
        lui   $8,0x41
        ori   $8,$8,0x0
        lbu   $4,0($8)
        addiu $2,$0,1
        syscall
        lui   $8,0x41
        ori   $8,$8,0x0
        addiu $9,$0,99
        sb    $9,0($8)
        lui   $8,0x41
        ori   $8,$8,0x0
        lbu   $4,0($8)
        addiu $2,$0,1
        syscall
        addiu $2,$0,0
        syscall
