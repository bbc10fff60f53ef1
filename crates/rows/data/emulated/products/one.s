# Puts the results of products, eight hexadecimal digits a line: those of qemu-mipsel 7.2 on the words
# that GNU as 2.40 makes of the same text with -march=r3000.
# Behind a jump to the cases, a routine puts register 8.
        j     cases
        nop
print:  addiu $16,$0,8
digit:  srl   $4,$8,28
        sltiu $17,$4,10
        bne   $17,$0,put
        sll   $8,$8,4
        addiu $4,$4,7
put:    addiu $4,$4,48
        addiu $2,$0,1
        syscall
        addiu $16,$16,-1
        bne   $16,$0,digit
        nop
        addiu $4,$0,10
        addiu $2,$0,1
        syscall
        jr    $31
        nop
cases:
# mfhi of mult of 80000000 and 00000002
        lui $9,0x8000
        addiu $11,$0,2
        mult $9,$11
        mfhi $10
        jal   print
        addu  $8,$10,$0
# mflo of mult of 80000000 and 00000002
        lui $9,0x8000
        addiu $11,$0,2
        mult $9,$11
        mflo $10
        jal   print
        addu  $8,$10,$0
# mfhi of multu of 80000000 and 00000002
        lui $9,0x8000
        addiu $11,$0,2
        multu $9,$11
        mfhi $10
        jal   print
        addu  $8,$10,$0
# mflo of multu of 80000000 and 00000002
        lui $9,0x8000
        addiu $11,$0,2
        multu $9,$11
        mflo $10
        jal   print
        addu  $8,$10,$0
# mfhi of mult of 80000000 and 80000000
        lui $9,0x8000
        lui $11,0x8000
        mult $9,$11
        mfhi $10
        jal   print
        addu  $8,$10,$0
# mflo of mult of 80000000 and 80000000
        lui $9,0x8000
        lui $11,0x8000
        mult $9,$11
        mflo $10
        jal   print
        addu  $8,$10,$0
# mfhi of multu of 80000000 and 80000000
        lui $9,0x8000
        lui $11,0x8000
        multu $9,$11
        mfhi $10
        jal   print
        addu  $8,$10,$0
# mflo of multu of 80000000 and 80000000
        lui $9,0x8000
        lui $11,0x8000
        multu $9,$11
        mflo $10
        jal   print
        addu  $8,$10,$0
# mfhi of mult of FFFFFFFF and FFFFFFFF
        addiu $9,$0,-1
        addiu $11,$0,-1
        mult $9,$11
        mfhi $10
        jal   print
        addu  $8,$10,$0
# mflo of mult of FFFFFFFF and FFFFFFFF
        addiu $9,$0,-1
        addiu $11,$0,-1
        mult $9,$11
        mflo $10
        jal   print
        addu  $8,$10,$0
# mfhi of multu of FFFFFFFF and FFFFFFFF
        addiu $9,$0,-1
        addiu $11,$0,-1
        multu $9,$11
        mfhi $10
        jal   print
        addu  $8,$10,$0
# mflo of multu of FFFFFFFF and FFFFFFFF
        addiu $9,$0,-1
        addiu $11,$0,-1
        multu $9,$11
        mflo $10
        jal   print
        addu  $8,$10,$0
# mfhi of mult of 12345678 and 9ABCDEF0
        lui $9,0x1234
        ori $9,$9,0x5678
        lui $11,0x9ABC
        ori $11,$11,0xDEF0
        mult $9,$11
        mfhi $10
        jal   print
        addu  $8,$10,$0
# mflo of mult of 12345678 and 9ABCDEF0
        lui $9,0x1234
        ori $9,$9,0x5678
        lui $11,0x9ABC
        ori $11,$11,0xDEF0
        mult $9,$11
        mflo $10
        jal   print
        addu  $8,$10,$0
# mfhi of multu of 12345678 and 9ABCDEF0
        lui $9,0x1234
        ori $9,$9,0x5678
        lui $11,0x9ABC
        ori $11,$11,0xDEF0
        multu $9,$11
        mfhi $10
        jal   print
        addu  $8,$10,$0
# mflo of multu of 12345678 and 9ABCDEF0
        lui $9,0x1234
        ori $9,$9,0x5678
        lui $11,0x9ABC
        ori $11,$11,0xDEF0
        multu $9,$11
        mflo $10
        jal   print
        addu  $8,$10,$0
# mfhi of mult of 7FFFFFFF and 7FFFFFFF
        lui $9,0x7FFF
        ori $9,$9,0xFFFF
        lui $11,0x7FFF
        ori $11,$11,0xFFFF
        mult $9,$11
        mfhi $10
        jal   print
        addu  $8,$10,$0
# mflo of mult of 7FFFFFFF and 7FFFFFFF
        lui $9,0x7FFF
        ori $9,$9,0xFFFF
        lui $11,0x7FFF
        ori $11,$11,0xFFFF
        mult $9,$11
        mflo $10
        jal   print
        addu  $8,$10,$0
# mfhi of multu of 7FFFFFFF and 7FFFFFFF
        lui $9,0x7FFF
        ori $9,$9,0xFFFF
        lui $11,0x7FFF
        ori $11,$11,0xFFFF
        multu $9,$11
        mfhi $10
        jal   print
        addu  $8,$10,$0
# mflo of multu of 7FFFFFFF and 7FFFFFFF
        lui $9,0x7FFF
        ori $9,$9,0xFFFF
        lui $11,0x7FFF
        ori $11,$11,0xFFFF
        multu $9,$11
        mflo $10
        jal   print
        addu  $8,$10,$0
# exit
        addiu $2,$0,0
        syscall
