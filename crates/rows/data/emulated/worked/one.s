# Puts the results of worked products, quotients and merged registers, eight hexadecimal digits a line. The remainder of a division by zero is
# the dividend, and the quotient 0.
# Behind a jump to the cases, a routine puts register 8.
        j     cases
        nop
print:  addiu $16,$0,8
digit:  srl   $4,$8,28
        sltiu $17,$4,10
        bne   $17,$0,put
        sll   $8,$8,4
        addiu $4,$4,7
put:    addiu $4,$4,48
        addiu $2,$0,1
        syscall
        addiu $16,$16,-1
        bne   $16,$0,digit
        nop
        addiu $4,$0,10
        addiu $2,$0,1
        syscall
        jr    $31
        nop
cases:
# mfhi of mult of 80000000 and 00000002
        lui $9,0x8000
        addiu $11,$0,2
        mult $9,$11
        mfhi $10
        jal   print
        addu  $8,$10,$0
# mflo of mult of 80000000 and 00000002
        lui $9,0x8000
        addiu $11,$0,2
        mult $9,$11
        mflo $10
        jal   print
        addu  $8,$10,$0
# mfhi of multu of 80000000 and 00000002
        lui $9,0x8000
        addiu $11,$0,2
        multu $9,$11
        mfhi $10
        jal   print
        addu  $8,$10,$0
# mflo of multu of 80000000 and 00000002
        lui $9,0x8000
        addiu $11,$0,2
        multu $9,$11
        mflo $10
        jal   print
        addu  $8,$10,$0
# mfhi of div of FFFFFFF9 and 00000002
        addiu $9,$0,-7
        addiu $11,$0,2
        div $9,$11
        mfhi $10
        jal   print
        addu  $8,$10,$0
# mflo of div of FFFFFFF9 and 00000002
        addiu $9,$0,-7
        addiu $11,$0,2
        div $9,$11
        mflo $10
        jal   print
        addu  $8,$10,$0
# mfhi of divu of 00000005 and 00000000
        addiu $9,$0,5
        addiu $11,$0,0
        divu $9,$11
        mfhi $10
        jal   print
        addu  $8,$10,$0
# mflo of divu of 00000005 and 00000000
        addiu $9,$0,5
        addiu $11,$0,0
        divu $9,$11
        mflo $10
        jal   print
        addu  $8,$10,$0
# mfhi of div of 80000000 and FFFFFFFF
        lui $9,0x8000
        addiu $11,$0,-1
        div $9,$11
        mfhi $10
        jal   print
        addu  $8,$10,$0
# mflo of div of 80000000 and FFFFFFFF
        lui $9,0x8000
        addiu $11,$0,-1
        div $9,$11
        mflo $10
        jal   print
        addu  $8,$10,$0
# mfhi of div of 00000005 and 00000000
        addiu $9,$0,5
        addiu $11,$0,0
        div $9,$11
        mfhi $10
        jal   print
        addu  $8,$10,$0
# mflo of div of 00000005 and 00000000
        addiu $9,$0,5
        addiu $11,$0,0
        div $9,$11
        mflo $10
        jal   print
        addu  $8,$10,$0
# lwl of 44332211 at 1
        lui $11,0x4433
        ori $11,$11,0x2211
        lui $9,0x41
        sw $11,0($9)
        lui $10,0xAABB
        ori $10,$10,0xCCDD
        lwl $10,1($9)
        nop
        jal   print
        addu  $8,$10,$0
# lwr of 44332211 at 1
        lui $11,0x4433
        ori $11,$11,0x2211
        lui $9,0x41
        sw $11,0($9)
        lui $10,0xAABB
        ori $10,$10,0xCCDD
        lwr $10,1($9)
        nop
        jal   print
        addu  $8,$10,$0
# swl of AABBCCDD over 44332211 at 1
        lui $11,0x4433
        ori $11,$11,0x2211
        lui $9,0x41
        sw $11,4($9)
        lui $12,0xAABB
        ori $12,$12,0xCCDD
        swl $12,5($9)
        lw $10,4($9)
        nop
        jal   print
        addu  $8,$10,$0
# swr of AABBCCDD over 44332211 at 1
        lui $11,0x4433
        ori $11,$11,0x2211
        lui $9,0x41
        sw $11,4($9)
        lui $12,0xAABB
        ori $12,$12,0xCCDD
        swr $12,5($9)
        lw $10,4($9)
        nop
        jal   print
        addu  $8,$10,$0
# exit
        addiu $2,$0,0
        syscall
