# Four processes: each gives the next a copy of its page. They store to them in the order 2 4 1 3.
p1:
        lui   $8,0x41
        ori   $8,$8,0x0
        addiu $9,$0,122
        sb    $9,0($8)
        lui   $4,0x41
        ori   $4,$4,0x0
        addiu $5,$0,2
        lui   $6,0x41
        ori   $6,$6,0x0
        addiu $7,$0,3
        addiu $2,$0,6
        syscall
        addiu $2,$0,3
        syscall
        addiu $2,$0,3
        syscall
        addiu $2,$0,3
        syscall
        lui   $8,0x41
        ori   $8,$8,0x0
        lbu   $4,0($8)
        addiu $2,$0,1
        syscall
        lui   $8,0x41
        ori   $8,$8,0x0
        addiu $9,$0,97
        sb    $9,0($8)
        lui   $8,0x41
        ori   $8,$8,0x0
        lbu   $4,0($8)
        addiu $2,$0,1
        syscall
        addiu $2,$0,3
        syscall
        addiu $2,$0,3
        syscall
        lui   $8,0x41
        ori   $8,$8,0x0
        lbu   $4,0($8)
        addiu $2,$0,1
        syscall
        addiu $2,$0,0
        syscall
p2:
        lui   $4,0x41
        ori   $4,$4,0x0
        addiu $5,$0,3
        lui   $6,0x41
        ori   $6,$6,0x0
        addiu $7,$0,3
        addiu $2,$0,6
        syscall
        addiu $2,$0,3
        syscall
        lui   $8,0x41
        ori   $8,$8,0x0
        lbu   $4,0($8)
        addiu $2,$0,1
        syscall
        lui   $8,0x41
        ori   $8,$8,0x0
        addiu $9,$0,98
        sb    $9,0($8)
        lui   $8,0x41
        ori   $8,$8,0x0
        lbu   $4,0($8)
        addiu $2,$0,1
        syscall
        addiu $2,$0,3
        syscall
        addiu $2,$0,3
        syscall
        addiu $2,$0,3
        syscall
        addiu $2,$0,3
        syscall
        lui   $8,0x41
        ori   $8,$8,0x0
        lbu   $4,0($8)
        addiu $2,$0,1
        syscall
        addiu $2,$0,0
        syscall
p3:
        lui   $4,0x41
        ori   $4,$4,0x0
        addiu $5,$0,4
        lui   $6,0x41
        ori   $6,$6,0x0
        addiu $7,$0,3
        addiu $2,$0,6
        syscall
        addiu $2,$0,3
        syscall
        addiu $2,$0,3
        syscall
        addiu $2,$0,3
        syscall
        addiu $2,$0,3
        syscall
        lui   $8,0x41
        ori   $8,$8,0x0
        lbu   $4,0($8)
        addiu $2,$0,1
        syscall
        lui   $8,0x41
        ori   $8,$8,0x0
        addiu $9,$0,99
        sb    $9,0($8)
        lui   $8,0x41
        ori   $8,$8,0x0
        lbu   $4,0($8)
        addiu $2,$0,1
        syscall
        addiu $2,$0,3
        syscall
        lui   $8,0x41
        ori   $8,$8,0x0
        lbu   $4,0($8)
        addiu $2,$0,1
        syscall
        addiu $2,$0,0
        syscall
p4:
        addiu $2,$0,3
        syscall
        addiu $2,$0,3
        syscall
        lui   $8,0x41
        ori   $8,$8,0x0
        lbu   $4,0($8)
        addiu $2,$0,1
        syscall
        lui   $8,0x41
        ori   $8,$8,0x0
        addiu $9,$0,100
        sb    $9,0($8)
        lui   $8,0x41
        ori   $8,$8,0x0
        lbu   $4,0($8)
        addiu $2,$0,1
        syscall
        addiu $2,$0,3
        syscall
        addiu $2,$0,3
        syscall
        addiu $2,$0,3
        syscall
        lui   $8,0x41
        ori   $8,$8,0x0
        lbu   $4,0($8)
        addiu $2,$0,1
        syscall
        addiu $2,$0,0
        syscall
