# Of 1,024 pages 1,022 are copies of one. Each is stored to in turn, and then all are read.
p1:
        lui   $8,0x41
        ori   $8,$8,0x0
        addiu $9,$0,97
        sb    $9,0($8)
        addiu $16,$0,2
next:
        lui   $17,0x80
        ori   $17,$17,0x0
        addiu $18,$0,204
copy:
        lui   $4,0x41
        ori   $4,$4,0x0
        addu  $5,$16,$0
        addu  $6,$17,$0
        addiu $7,$0,3
        addiu $2,$0,6
        syscall
        addu  $19,$2,$0
        addiu $17,$17,4096
        addiu $18,$18,-1
        bne   $18,$0,copy
        nop
        addiu $16,$16,1
        addiu $20,$0,7
        bne   $16,$20,next
        nop
        lui   $17,0x80
        ori   $17,$17,0x0
        addiu $18,$0,3
last:
        lui   $4,0x41
        ori   $4,$4,0x0
        addu  $5,$16,$0
        addu  $6,$17,$0
        addiu $7,$0,3
        addiu $2,$0,6
        syscall
        addiu $4,$2,48
        addiu $2,$0,1
        syscall
        addiu $17,$17,4096
        addiu $18,$18,-1
        bne   $18,$0,last
        nop
        addiu $2,$0,3
        syscall
        addiu $2,$0,3
        syscall
        lui   $8,0x41
        ori   $8,$8,0x0
        lbu   $4,0($8)
        addiu $2,$0,1
        syscall
        lui   $8,0x41
        ori   $8,$8,0x0
        addiu $9,$0,122
        sb    $9,0($8)
        lui   $8,0x41
        ori   $8,$8,0x0
        lbu   $4,0($8)
        addiu $2,$0,1
        syscall
        addiu $2,$0,0
        syscall
p2:
        lui   $17,0x80
        ori   $17,$17,0x0
        addiu $18,$0,204
        addiu $9,$0,66
store2:
        sb    $9,0($17)
        addiu $17,$17,4096
        addiu $18,$18,-1
        bne   $18,$0,store2
        nop
        addiu $2,$0,3
        syscall
        lui   $17,0x80
        ori   $17,$17,0x0
        addiu $18,$0,204
        addiu $19,$0,48
        addiu $20,$0,66
read2:
        lbu   $10,0($17)
        addiu $17,$17,4096
        bne   $10,$20,other2
        nop
        addiu $19,$19,1
other2:
        addiu $18,$18,-1
        bne   $18,$0,read2
        nop
        andi  $4,$19,0x7f
        addiu $2,$0,1
        syscall
        addiu $2,$0,0
        syscall
p3:
        lui   $17,0x80
        ori   $17,$17,0x0
        addiu $18,$0,204
        addiu $9,$0,67
store3:
        sb    $9,0($17)
        addiu $17,$17,4096
        addiu $18,$18,-1
        bne   $18,$0,store3
        nop
        addiu $2,$0,3
        syscall
        lui   $17,0x80
        ori   $17,$17,0x0
        addiu $18,$0,204
        addiu $19,$0,48
        addiu $20,$0,67
read3:
        lbu   $10,0($17)
        addiu $17,$17,4096
        bne   $10,$20,other3
        nop
        addiu $19,$19,1
other3:
        addiu $18,$18,-1
        bne   $18,$0,read3
        nop
        andi  $4,$19,0x7f
        addiu $2,$0,1
        syscall
        addiu $2,$0,0
        syscall
p4:
        lui   $17,0x80
        ori   $17,$17,0x0
        addiu $18,$0,204
        addiu $9,$0,68
store4:
        sb    $9,0($17)
        addiu $17,$17,4096
        addiu $18,$18,-1
        bne   $18,$0,store4
        nop
        addiu $2,$0,3
        syscall
        lui   $17,0x80
        ori   $17,$17,0x0
        addiu $18,$0,204
        addiu $19,$0,48
        addiu $20,$0,68
read4:
        lbu   $10,0($17)
        addiu $17,$17,4096
        bne   $10,$20,other4
        nop
        addiu $19,$19,1
other4:
        addiu $18,$18,-1
        bne   $18,$0,read4
        nop
        andi  $4,$19,0x7f
        addiu $2,$0,1
        syscall
        addiu $2,$0,0
        syscall
p5:
        lui   $17,0x80
        ori   $17,$17,0x0
        addiu $18,$0,204
        addiu $9,$0,69
store5:
        sb    $9,0($17)
        addiu $17,$17,4096
        addiu $18,$18,-1
        bne   $18,$0,store5
        nop
        addiu $2,$0,3
        syscall
        lui   $17,0x80
        ori   $17,$17,0x0
        addiu $18,$0,204
        addiu $19,$0,48
        addiu $20,$0,69
read5:
        lbu   $10,0($17)
        addiu $17,$17,4096
        bne   $10,$20,other5
        nop
        addiu $19,$19,1
other5:
        addiu $18,$18,-1
        bne   $18,$0,read5
        nop
        andi  $4,$19,0x7f
        addiu $2,$0,1
        syscall
        addiu $2,$0,0
        syscall
p6:
        lui   $17,0x80
        ori   $17,$17,0x0
        addiu $18,$0,204
        addiu $9,$0,70
store6:
        sb    $9,0($17)
        addiu $17,$17,4096
        addiu $18,$18,-1
        bne   $18,$0,store6
        nop
        addiu $2,$0,3
        syscall
        lui   $17,0x80
        ori   $17,$17,0x0
        addiu $18,$0,204
        addiu $19,$0,48
        addiu $20,$0,70
read6:
        lbu   $10,0($17)
        addiu $17,$17,4096
        bne   $10,$20,other6
        nop
        addiu $19,$19,1
other6:
        addiu $18,$18,-1
        bne   $18,$0,read6
        nop
        andi  $4,$19,0x7f
        addiu $2,$0,1
        syscall
        addiu $2,$0,0
        syscall
p7:
        lui   $17,0x80
        ori   $17,$17,0x0
        addiu $18,$0,2
        addiu $9,$0,71
store7:
        sb    $9,0($17)
        addiu $17,$17,4096
        addiu $18,$18,-1
        bne   $18,$0,store7
        nop
        addiu $2,$0,3
        syscall
        lui   $17,0x80
        ori   $17,$17,0x0
        addiu $18,$0,2
        addiu $19,$0,48
        addiu $20,$0,71
read7:
        lbu   $10,0($17)
        addiu $17,$17,4096
        bne   $10,$20,other7
        nop
        addiu $19,$19,1
other7:
        addiu $18,$18,-1
        bne   $18,$0,read7
        nop
        andi  $4,$19,0x7f
        addiu $2,$0,1
        syscall
        addiu $2,$0,0
        syscall
