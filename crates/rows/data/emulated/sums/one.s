# Puts the results of sums, eight hexadecimal digits a line: those of qemu-mipsel 7.2 on the words
# that GNU as 2.40 makes of the same text with -march=r3000.
# Behind a jump to the cases, a routine puts register 8.
        j     cases
        nop
print:  addiu $16,$0,8
digit:  srl   $4,$8,28
        sltiu $17,$4,10
        bne   $17,$0,put
        sll   $8,$8,4
        addiu $4,$4,7
put:    addiu $4,$4,48
        addiu $2,$0,1
        syscall
        addiu $16,$16,-1
        bne   $16,$0,digit
        nop
        addiu $4,$0,10
        addiu $2,$0,1
        syscall
        jr    $31
        nop
cases:
# add of 7FFFFFFE and 00000001
        lui $9,0x7FFF
        ori $9,$9,0xFFFE
        addiu $11,$0,1
        add $10,$9,$11
        jal   print
        addu  $8,$10,$0
# add of FFFFFFFF and FFFFFFFF
        addiu $9,$0,-1
        addiu $11,$0,-1
        add $10,$9,$11
        jal   print
        addu  $8,$10,$0
# addi of 80000001 and -1
        lui $9,0x8000
        ori $9,$9,1
        addi $10,$9,-1
        jal   print
        addu  $8,$10,$0
# addi of FFFFFFF0 and 32767
        addiu $9,$0,-16
        addi $10,$9,32767
        jal   print
        addu  $8,$10,$0
# addu of 7FFFFFFF and 00000001
        lui $9,0x7FFF
        ori $9,$9,0xFFFF
        addiu $11,$0,1
        addu $10,$9,$11
        jal   print
        addu  $8,$10,$0
# addu of FFFFFFFF and 00000002
        addiu $9,$0,-1
        addiu $11,$0,2
        addu $10,$9,$11
        jal   print
        addu  $8,$10,$0
# addiu of 7FFFFFFF and 1
        lui $9,0x7FFF
        ori $9,$9,0xFFFF
        addiu $10,$9,1
        jal   print
        addu  $8,$10,$0
# addiu of 00000005 and -32768
        addiu $9,$0,5
        addiu $10,$9,-32768
        jal   print
        addu  $8,$10,$0
# sub of 80000000 and 80000000
        lui $9,0x8000
        lui $11,0x8000
        sub $10,$9,$11
        jal   print
        addu  $8,$10,$0
# sub of 00000005 and 00000007
        addiu $9,$0,5
        addiu $11,$0,7
        sub $10,$9,$11
        jal   print
        addu  $8,$10,$0
# subu of 00000000 and 00000001
        addiu $9,$0,0
        addiu $11,$0,1
        subu $10,$9,$11
        jal   print
        addu  $8,$10,$0
# subu of 80000000 and 00000001
        lui $9,0x8000
        addiu $11,$0,1
        subu $10,$9,$11
        jal   print
        addu  $8,$10,$0
# slt of FFFFFFFF and 00000000
        addiu $9,$0,-1
        addiu $11,$0,0
        slt $10,$9,$11
        jal   print
        addu  $8,$10,$0
# slt of 7FFFFFFF and 80000000
        lui $9,0x7FFF
        ori $9,$9,0xFFFF
        lui $11,0x8000
        slt $10,$9,$11
        jal   print
        addu  $8,$10,$0
# slt of 00000005 and 00000005
        addiu $9,$0,5
        addiu $11,$0,5
        slt $10,$9,$11
        jal   print
        addu  $8,$10,$0
# sltu of FFFFFFFF and 00000000
        addiu $9,$0,-1
        addiu $11,$0,0
        sltu $10,$9,$11
        jal   print
        addu  $8,$10,$0
# sltu of 7FFFFFFF and 80000000
        lui $9,0x7FFF
        ori $9,$9,0xFFFF
        lui $11,0x8000
        sltu $10,$9,$11
        jal   print
        addu  $8,$10,$0
# sltu of 00000000 and FFFFFFFF
        addiu $9,$0,0
        addiu $11,$0,-1
        sltu $10,$9,$11
        jal   print
        addu  $8,$10,$0
# slti of 80000000 and -32768
        lui $9,0x8000
        slti $10,$9,-32768
        jal   print
        addu  $8,$10,$0
# slti of 00000007 and -1
        addiu $9,$0,7
        slti $10,$9,-1
        jal   print
        addu  $8,$10,$0
# slti of FFFFFFFF and 0
        addiu $9,$0,-1
        slti $10,$9,0
        jal   print
        addu  $8,$10,$0
# sltiu of 80000000 and -1
        lui $9,0x8000
        sltiu $10,$9,-1
        jal   print
        addu  $8,$10,$0
# sltiu of FFFFFFFF and -1
        addiu $9,$0,-1
        sltiu $10,$9,-1
        jal   print
        addu  $8,$10,$0
# sltiu of 00000005 and 6
        addiu $9,$0,5
        sltiu $10,$9,6
        jal   print
        addu  $8,$10,$0
# exit
        addiu $2,$0,0
        syscall
