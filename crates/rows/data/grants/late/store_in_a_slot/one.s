# Copies are stored to first in the slots of branches.
p1:
        lui   $8,0x41
        ori   $8,$8,0x0
        addiu $9,$0,97
        sb    $9,0($8)
        lui   $4,0x41
        ori   $4,$4,0x0
        addiu $5,$0,1
        lui   $6,0x41
        ori   $6,$6,0x1000
        addiu $7,$0,3
        addiu $2,$0,6
        syscall
        lui   $4,0x41
        ori   $4,$4,0x0
        addiu $5,$0,1
        lui   $6,0x41
        ori   $6,$6,0x2000
        addiu $7,$0,3
        addiu $2,$0,6
        syscall
        lui   $8,0x41
        ori   $8,$8,0x1000
        addiu $9,$0,98
        beq   $0,$0,on
        sb    $9,0($8)
        addiu $9,$0,63
on:
        lui   $8,0x41
        ori   $8,$8,0x0
        lbu   $4,0($8)
        addiu $2,$0,1
        syscall
        lui   $8,0x41
        ori   $8,$8,0x1000
        lbu   $4,0($8)
        addiu $2,$0,1
        syscall
        lui   $8,0x41
        ori   $8,$8,0x2000
        addiu $9,$0,99
        bne   $0,$0,off
        sb    $9,0($8)
off:
        lui   $8,0x41
        ori   $8,$8,0x0
        lbu   $4,0($8)
        addiu $2,$0,1
        syscall
        lui   $8,0x41
        ori   $8,$8,0x1000
        lbu   $4,0($8)
        addiu $2,$0,1
        syscall
        lui   $8,0x41
        ori   $8,$8,0x2000
        lbu   $4,0($8)
        addiu $2,$0,1
        syscall
        addiu $2,$0,0
        syscall
