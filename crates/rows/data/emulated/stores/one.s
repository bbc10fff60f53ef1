# Puts the results of stores, eight hexadecimal digits a line: those of qemu-mipsel 7.2 on the words
# that GNU as 2.40 makes of the same text with -march=r3000.
# Behind a jump to the cases, a routine puts register 8.
        j     cases
        nop
print:  addiu $16,$0,8
digit:  srl   $4,$8,28
        sltiu $17,$4,10
        bne   $17,$0,put
        sll   $8,$8,4
        addiu $4,$4,7
put:    addiu $4,$4,48
        addiu $2,$0,1
        syscall
        addiu $16,$16,-1
        bne   $16,$0,digit
        nop
        addiu $4,$0,10
        addiu $2,$0,1
        syscall
        jr    $31
        nop
cases:
# sb of AABBCCDD over 44332211 at 0
        lui $11,0x4433
        ori $11,$11,0x2211
        lui $9,0x41
        sw $11,4($9)
        lui $12,0xAABB
        ori $12,$12,0xCCDD
        sb $12,4($9)
        lw $10,4($9)
        nop
        jal   print
        addu  $8,$10,$0
# sb of AABBCCDD over 44332211 at 1
        lui $11,0x4433
        ori $11,$11,0x2211
        lui $9,0x41
        sw $11,4($9)
        lui $12,0xAABB
        ori $12,$12,0xCCDD
        sb $12,5($9)
        lw $10,4($9)
        nop
        jal   print
        addu  $8,$10,$0
# sb of AABBCCDD over 44332211 at 2
        lui $11,0x4433
        ori $11,$11,0x2211
        lui $9,0x41
        sw $11,4($9)
        lui $12,0xAABB
        ori $12,$12,0xCCDD
        sb $12,6($9)
        lw $10,4($9)
        nop
        jal   print
        addu  $8,$10,$0
# sb of AABBCCDD over 44332211 at 3
        lui $11,0x4433
        ori $11,$11,0x2211
        lui $9,0x41
        sw $11,4($9)
        lui $12,0xAABB
        ori $12,$12,0xCCDD
        sb $12,7($9)
        lw $10,4($9)
        nop
        jal   print
        addu  $8,$10,$0
# sh of AABBCCDD over 44332211 at 0
        lui $11,0x4433
        ori $11,$11,0x2211
        lui $9,0x41
        sw $11,4($9)
        lui $12,0xAABB
        ori $12,$12,0xCCDD
        sh $12,4($9)
        lw $10,4($9)
        nop
        jal   print
        addu  $8,$10,$0
# sh of AABBCCDD over 44332211 at 2
        lui $11,0x4433
        ori $11,$11,0x2211
        lui $9,0x41
        sw $11,4($9)
        lui $12,0xAABB
        ori $12,$12,0xCCDD
        sh $12,6($9)
        lw $10,4($9)
        nop
        jal   print
        addu  $8,$10,$0
# sw of AABBCCDD over 44332211 at 0
        lui $11,0x4433
        ori $11,$11,0x2211
        lui $9,0x41
        sw $11,4($9)
        lui $12,0xAABB
        ori $12,$12,0xCCDD
        sw $12,4($9)
        lw $10,4($9)
        nop
        jal   print
        addu  $8,$10,$0
# swl of AABBCCDD over 44332211 at 0
        lui $11,0x4433
        ori $11,$11,0x2211
        lui $9,0x41
        sw $11,4($9)
        lui $12,0xAABB
        ori $12,$12,0xCCDD
        swl $12,4($9)
        lw $10,4($9)
        nop
        jal   print
        addu  $8,$10,$0
# swl of AABBCCDD over 44332211 at 1
        lui $11,0x4433
        ori $11,$11,0x2211
        lui $9,0x41
        sw $11,4($9)
        lui $12,0xAABB
        ori $12,$12,0xCCDD
        swl $12,5($9)
        lw $10,4($9)
        nop
        jal   print
        addu  $8,$10,$0
# swl of AABBCCDD over 44332211 at 2
        lui $11,0x4433
        ori $11,$11,0x2211
        lui $9,0x41
        sw $11,4($9)
        lui $12,0xAABB
        ori $12,$12,0xCCDD
        swl $12,6($9)
        lw $10,4($9)
        nop
        jal   print
        addu  $8,$10,$0
# swl of AABBCCDD over 44332211 at 3
        lui $11,0x4433
        ori $11,$11,0x2211
        lui $9,0x41
        sw $11,4($9)
        lui $12,0xAABB
        ori $12,$12,0xCCDD
        swl $12,7($9)
        lw $10,4($9)
        nop
        jal   print
        addu  $8,$10,$0
# swr of AABBCCDD over 44332211 at 0
        lui $11,0x4433
        ori $11,$11,0x2211
        lui $9,0x41
        sw $11,4($9)
        lui $12,0xAABB
        ori $12,$12,0xCCDD
        swr $12,4($9)
        lw $10,4($9)
        nop
        jal   print
        addu  $8,$10,$0
# swr of AABBCCDD over 44332211 at 1
        lui $11,0x4433
        ori $11,$11,0x2211
        lui $9,0x41
        sw $11,4($9)
        lui $12,0xAABB
        ori $12,$12,0xCCDD
        swr $12,5($9)
        lw $10,4($9)
        nop
        jal   print
        addu  $8,$10,$0
# swr of AABBCCDD over 44332211 at 2
        lui $11,0x4433
        ori $11,$11,0x2211
        lui $9,0x41
        sw $11,4($9)
        lui $12,0xAABB
        ori $12,$12,0xCCDD
        swr $12,6($9)
        lw $10,4($9)
        nop
        jal   print
        addu  $8,$10,$0
# swr of AABBCCDD over 44332211 at 3
        lui $11,0x4433
        ori $11,$11,0x2211
        lui $9,0x41
        sw $11,4($9)
        lui $12,0xAABB
        ori $12,$12,0xCCDD
        swr $12,7($9)
        lw $10,4($9)
        nop
        jal   print
        addu  $8,$10,$0
# exit
        addiu $2,$0,0
        syscall
