# Puts the results of branches, eight hexadecimal digits a line: those of qemu-mipsel 7.2 on the words
# that GNU as 2.40 makes of the same text with -march=r3000.
# Behind a jump to the cases, a routine puts register 8.
        j     cases
        nop
print:  addiu $16,$0,8
digit:  srl   $4,$8,28
        sltiu $17,$4,10
        bne   $17,$0,put
        sll   $8,$8,4
        addiu $4,$4,7
put:    addiu $4,$4,48
        addiu $2,$0,1
        syscall
        addiu $16,$16,-1
        bne   $16,$0,digit
        nop
        addiu $4,$0,10
        addiu $2,$0,1
        syscall
        jr    $31
        nop
cases:
# bltz of FFFFFFFF
        addiu $9,$0,-1
        addiu $10,$0,1
        bltz $9,on1
        addiu $10,$10,2
        addiu $10,$10,4
on1:
        jal   print
        addu  $8,$10,$0
# bltz of 00000000
        addiu $9,$0,0
        addiu $10,$0,1
        bltz $9,on2
        addiu $10,$10,2
        addiu $10,$10,4
on2:
        jal   print
        addu  $8,$10,$0
# bltz of 00000001
        addiu $9,$0,1
        addiu $10,$0,1
        bltz $9,on3
        addiu $10,$10,2
        addiu $10,$10,4
on3:
        jal   print
        addu  $8,$10,$0
# bgez of FFFFFFFF
        addiu $9,$0,-1
        addiu $10,$0,1
        bgez $9,on4
        addiu $10,$10,2
        addiu $10,$10,4
on4:
        jal   print
        addu  $8,$10,$0
# bgez of 00000000
        addiu $9,$0,0
        addiu $10,$0,1
        bgez $9,on5
        addiu $10,$10,2
        addiu $10,$10,4
on5:
        jal   print
        addu  $8,$10,$0
# bgez of 00000001
        addiu $9,$0,1
        addiu $10,$0,1
        bgez $9,on6
        addiu $10,$10,2
        addiu $10,$10,4
on6:
        jal   print
        addu  $8,$10,$0
# blez of FFFFFFFF
        addiu $9,$0,-1
        addiu $10,$0,1
        blez $9,on7
        addiu $10,$10,2
        addiu $10,$10,4
on7:
        jal   print
        addu  $8,$10,$0
# blez of 00000000
        addiu $9,$0,0
        addiu $10,$0,1
        blez $9,on8
        addiu $10,$10,2
        addiu $10,$10,4
on8:
        jal   print
        addu  $8,$10,$0
# blez of 00000001
        addiu $9,$0,1
        addiu $10,$0,1
        blez $9,on9
        addiu $10,$10,2
        addiu $10,$10,4
on9:
        jal   print
        addu  $8,$10,$0
# bgtz of FFFFFFFF
        addiu $9,$0,-1
        addiu $10,$0,1
        bgtz $9,on10
        addiu $10,$10,2
        addiu $10,$10,4
on10:
        jal   print
        addu  $8,$10,$0
# bgtz of 00000000
        addiu $9,$0,0
        addiu $10,$0,1
        bgtz $9,on11
        addiu $10,$10,2
        addiu $10,$10,4
on11:
        jal   print
        addu  $8,$10,$0
# bgtz of 00000001
        addiu $9,$0,1
        addiu $10,$0,1
        bgtz $9,on12
        addiu $10,$10,2
        addiu $10,$10,4
on12:
        jal   print
        addu  $8,$10,$0
# beq of 00000005 and 00000005
        addiu $9,$0,5
        addiu $11,$0,5
        addiu $10,$0,1
        beq $9,$11,on13
        addiu $10,$10,2
        addiu $10,$10,4
on13:
        jal   print
        addu  $8,$10,$0
# beq of 00000005 and 00000006
        addiu $9,$0,5
        addiu $11,$0,6
        addiu $10,$0,1
        beq $9,$11,on14
        addiu $10,$10,2
        addiu $10,$10,4
on14:
        jal   print
        addu  $8,$10,$0
# bne of 00000005 and 00000005
        addiu $9,$0,5
        addiu $11,$0,5
        addiu $10,$0,1
        bne $9,$11,on15
        addiu $10,$10,2
        addiu $10,$10,4
on15:
        jal   print
        addu  $8,$10,$0
# bne of 00000005 and 00000006
        addiu $9,$0,5
        addiu $11,$0,6
        addiu $10,$0,1
        bne $9,$11,on16
        addiu $10,$10,2
        addiu $10,$10,4
on16:
        jal   print
        addu  $8,$10,$0
# exit
        addiu $2,$0,0
        syscall
