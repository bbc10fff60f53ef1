# Puts the results of quotients, eight hexadecimal digits a line: those of qemu-mipsel 7.2 on the words
# that GNU as 2.40 makes of the same text with -march=r3000.
# Behind a jump to the cases, a routine puts register 8.
        j     cases
        nop
print:  addiu $16,$0,8
digit:  srl   $4,$8,28
        sltiu $17,$4,10
        bne   $17,$0,put
        sll   $8,$8,4
        addiu $4,$4,7
put:    addiu $4,$4,48
        addiu $2,$0,1
        syscall
        addiu $16,$16,-1
        bne   $16,$0,digit
        nop
        addiu $4,$0,10
        addiu $2,$0,1
        syscall
        jr    $31
        nop
cases:
# mfhi of div of FFFFFFF9 and 00000002
        addiu $9,$0,-7
        addiu $11,$0,2
        div $9,$11
        mfhi $10
        jal   print
        addu  $8,$10,$0
# mflo of div of FFFFFFF9 and 00000002
        addiu $9,$0,-7
        addiu $11,$0,2
        div $9,$11
        mflo $10
        jal   print
        addu  $8,$10,$0
# mfhi of divu of FFFFFFF9 and 00000002
        addiu $9,$0,-7
        addiu $11,$0,2
        divu $9,$11
        mfhi $10
        jal   print
        addu  $8,$10,$0
# mflo of divu of FFFFFFF9 and 00000002
        addiu $9,$0,-7
        addiu $11,$0,2
        divu $9,$11
        mflo $10
        jal   print
        addu  $8,$10,$0
# mfhi of div of 00000007 and FFFFFFFE
        addiu $9,$0,7
        addiu $11,$0,-2
        div $9,$11
        mfhi $10
        jal   print
        addu  $8,$10,$0
# mflo of div of 00000007 and FFFFFFFE
        addiu $9,$0,7
        addiu $11,$0,-2
        div $9,$11
        mflo $10
        jal   print
        addu  $8,$10,$0
# mfhi of divu of 00000007 and FFFFFFFE
        addiu $9,$0,7
        addiu $11,$0,-2
        divu $9,$11
        mfhi $10
        jal   print
        addu  $8,$10,$0
# mflo of divu of 00000007 and FFFFFFFE
        addiu $9,$0,7
        addiu $11,$0,-2
        divu $9,$11
        mflo $10
        jal   print
        addu  $8,$10,$0
# mfhi of div of FFFFFFF9 and FFFFFFFE
        addiu $9,$0,-7
        addiu $11,$0,-2
        div $9,$11
        mfhi $10
        jal   print
        addu  $8,$10,$0
# mflo of div of FFFFFFF9 and FFFFFFFE
        addiu $9,$0,-7
        addiu $11,$0,-2
        div $9,$11
        mflo $10
        jal   print
        addu  $8,$10,$0
# mfhi of divu of FFFFFFF9 and FFFFFFFE
        addiu $9,$0,-7
        addiu $11,$0,-2
        divu $9,$11
        mfhi $10
        jal   print
        addu  $8,$10,$0
# mflo of divu of FFFFFFF9 and FFFFFFFE
        addiu $9,$0,-7
        addiu $11,$0,-2
        divu $9,$11
        mflo $10
        jal   print
        addu  $8,$10,$0
# mfhi of div of 80000000 and 00000003
        lui $9,0x8000
        addiu $11,$0,3
        div $9,$11
        mfhi $10
        jal   print
        addu  $8,$10,$0
# mflo of div of 80000000 and 00000003
        lui $9,0x8000
        addiu $11,$0,3
        div $9,$11
        mflo $10
        jal   print
        addu  $8,$10,$0
# mfhi of divu of 80000000 and 00000003
        lui $9,0x8000
        addiu $11,$0,3
        divu $9,$11
        mfhi $10
        jal   print
        addu  $8,$10,$0
# mflo of divu of 80000000 and 00000003
        lui $9,0x8000
        addiu $11,$0,3
        divu $9,$11
        mflo $10
        jal   print
        addu  $8,$10,$0
# mfhi of div of 12345678 and 00009ABC
        lui $9,0x1234
        ori $9,$9,0x5678
        lui $11,0x0
        ori $11,$11,0x9ABC
        div $9,$11
        mfhi $10
        jal   print
        addu  $8,$10,$0
# mflo of div of 12345678 and 00009ABC
        lui $9,0x1234
        ori $9,$9,0x5678
        lui $11,0x0
        ori $11,$11,0x9ABC
        div $9,$11
        mflo $10
        jal   print
        addu  $8,$10,$0
# mfhi of divu of 12345678 and 00009ABC
        lui $9,0x1234
        ori $9,$9,0x5678
        lui $11,0x0
        ori $11,$11,0x9ABC
        divu $9,$11
        mfhi $10
        jal   print
        addu  $8,$10,$0
# mflo of divu of 12345678 and 00009ABC
        lui $9,0x1234
        ori $9,$9,0x5678
        lui $11,0x0
        ori $11,$11,0x9ABC
        divu $9,$11
        mflo $10
        jal   print
        addu  $8,$10,$0
# mthi and mfhi
        lui $9,0xCAFE
        ori $9,$9,0x1234
        mthi $9
        mfhi $10
        jal   print
        addu  $8,$10,$0
# mtlo and mflo
        lui $9,0xCAFE
        ori $9,$9,0x1234
        mtlo $9
        mflo $10
        jal   print
        addu  $8,$10,$0
# exit
        addiu $2,$0,0
        syscall
