# Puts the results of shifts, eight hexadecimal digits a line: those of qemu-mipsel 7.2 on the words
# that GNU as 2.40 makes of the same text with -march=r3000.
# Behind a jump to the cases, a routine puts register 8.
        j     cases
        nop
print:  addiu $16,$0,8
digit:  srl   $4,$8,28
        sltiu $17,$4,10
        bne   $17,$0,put
        sll   $8,$8,4
        addiu $4,$4,7
put:    addiu $4,$4,48
        addiu $2,$0,1
        syscall
        addiu $16,$16,-1
        bne   $16,$0,digit
        nop
        addiu $4,$0,10
        addiu $2,$0,1
        syscall
        jr    $31
        nop
cases:
# sll of 00000003 by 0
        addiu $9,$0,3
        sll $10,$9,0
        jal   print
        addu  $8,$10,$0
# sll of 00000003 by 31
        addiu $9,$0,3
        sll $10,$9,31
        jal   print
        addu  $8,$10,$0
# sll of DEADBEEF by 4
        lui $9,0xDEAD
        ori $9,$9,0xBEEF
        sll $10,$9,4
        jal   print
        addu  $8,$10,$0
# srl of 80000000 by 31
        lui $9,0x8000
        srl $10,$9,31
        jal   print
        addu  $8,$10,$0
# srl of DEADBEEF by 7
        lui $9,0xDEAD
        ori $9,$9,0xBEEF
        srl $10,$9,7
        jal   print
        addu  $8,$10,$0
# srl of FFFFFFFF by 0
        addiu $9,$0,-1
        srl $10,$9,0
        jal   print
        addu  $8,$10,$0
# sra of 80000000 by 31
        lui $9,0x8000
        sra $10,$9,31
        jal   print
        addu  $8,$10,$0
# sra of DEADBEEF by 7
        lui $9,0xDEAD
        ori $9,$9,0xBEEF
        sra $10,$9,7
        jal   print
        addu  $8,$10,$0
# sra of 7FFFFFFF by 4
        lui $9,0x7FFF
        ori $9,$9,0xFFFF
        sra $10,$9,4
        jal   print
        addu  $8,$10,$0
# sra of FFFFFFF9 by 0
        addiu $9,$0,-7
        sra $10,$9,0
        jal   print
        addu  $8,$10,$0
# sllv of DEADBEEF by 00000021
        lui $9,0xDEAD
        ori $9,$9,0xBEEF
        addiu $11,$0,33
        sllv $10,$9,$11
        jal   print
        addu  $8,$10,$0
# sllv of 00000001 by FFFFFFFF
        addiu $9,$0,1
        addiu $11,$0,-1
        sllv $10,$9,$11
        jal   print
        addu  $8,$10,$0
# srlv of DEADBEEF by 00000024
        lui $9,0xDEAD
        ori $9,$9,0xBEEF
        addiu $11,$0,36
        srlv $10,$9,$11
        jal   print
        addu  $8,$10,$0
# srlv of DEADBEEF by 00000020
        lui $9,0xDEAD
        ori $9,$9,0xBEEF
        addiu $11,$0,32
        srlv $10,$9,$11
        jal   print
        addu  $8,$10,$0
# srav of DEADBEEF by 00000028
        lui $9,0xDEAD
        ori $9,$9,0xBEEF
        addiu $11,$0,40
        srav $10,$9,$11
        jal   print
        addu  $8,$10,$0
# srav of 80000000 by FFFFFFFF
        lui $9,0x8000
        addiu $11,$0,-1
        srav $10,$9,$11
        jal   print
        addu  $8,$10,$0
# srav of 12345678 by 00000008
        lui $9,0x1234
        ori $9,$9,0x5678
        addiu $11,$0,8
        srav $10,$9,$11
        jal   print
        addu  $8,$10,$0
# exit
        addiu $2,$0,0
        syscall
