# Lines before the first label have none. Then loads of each kind, in slots too, and a branch whose slot is on the next page.
        lui   $8,0x0041
main:   # a comment behind a label

start:  addiu $9,$0,0x81       # the second of two labels at one place
        sb    $9,5($8)
        sw    $8,8($8)
        lb    $10,5($8)
        lbu   $11,5($8)
        lh    $12,4($8)
        lhu   $13,4($8)
        lwl   $14,6($8)
        lwr   $14,3($8)
        lw    $15,8($8)
        nop
        lw    $15,8($15)       # its base is what it loads
        jal   part
        lw    $16,0($31)       # its base is what the branch links
here:   beq   $0,$0,far
        lw    $17,4($8)
        .word 0
part:   jr    $31
        lw    $31,8($8)
        .space 4004
far:    addiu $2,$0,10
        syscall
        j     over
over:   lw    $19,4($8)        # the first word of the next page
        addiu $2,$0,77
        syscall
        lui   $4,0x0041
        addiu $5,$0,1
        lui   $6,0x0042
        addiu $7,$0,3
        addiu $2,$0,6
        syscall
        lui   $4,0x0040
        addiu $5,$0,2
        lui   $6,0x0043
        addiu $2,$0,6
        syscall
        addiu $2,$0,3
        syscall
        lw    $20,0($0)
