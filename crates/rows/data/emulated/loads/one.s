# Puts the results of loads, eight hexadecimal digits a line: those of qemu-mipsel 7.2 on the words
# that GNU as 2.40 makes of the same text with -march=r3000.
# Behind a jump to the cases, a routine puts register 8.
        j     cases
        nop
print:  addiu $16,$0,8
digit:  srl   $4,$8,28
        sltiu $17,$4,10
        bne   $17,$0,put
        sll   $8,$8,4
        addiu $4,$4,7
put:    addiu $4,$4,48
        addiu $2,$0,1
        syscall
        addiu $16,$16,-1
        bne   $16,$0,digit
        nop
        addiu $4,$0,10
        addiu $2,$0,1
        syscall
        jr    $31
        nop
cases:
# lb of 80FF7F01 at 0
        lui $11,0x80FF
        ori $11,$11,0x7F01
        lui $9,0x41
        sw $11,0($9)
        lui $10,0xAABB
        ori $10,$10,0xCCDD
        lb $10,0($9)
        nop
        jal   print
        addu  $8,$10,$0
# lb of 80FF7F01 at 1
        lui $11,0x80FF
        ori $11,$11,0x7F01
        lui $9,0x41
        sw $11,0($9)
        lui $10,0xAABB
        ori $10,$10,0xCCDD
        lb $10,1($9)
        nop
        jal   print
        addu  $8,$10,$0
# lb of 80FF7F01 at 2
        lui $11,0x80FF
        ori $11,$11,0x7F01
        lui $9,0x41
        sw $11,0($9)
        lui $10,0xAABB
        ori $10,$10,0xCCDD
        lb $10,2($9)
        nop
        jal   print
        addu  $8,$10,$0
# lb of 80FF7F01 at 3
        lui $11,0x80FF
        ori $11,$11,0x7F01
        lui $9,0x41
        sw $11,0($9)
        lui $10,0xAABB
        ori $10,$10,0xCCDD
        lb $10,3($9)
        nop
        jal   print
        addu  $8,$10,$0
# lbu of 80FF7F01 at 0
        lui $11,0x80FF
        ori $11,$11,0x7F01
        lui $9,0x41
        sw $11,0($9)
        lui $10,0xAABB
        ori $10,$10,0xCCDD
        lbu $10,0($9)
        nop
        jal   print
        addu  $8,$10,$0
# lbu of 80FF7F01 at 1
        lui $11,0x80FF
        ori $11,$11,0x7F01
        lui $9,0x41
        sw $11,0($9)
        lui $10,0xAABB
        ori $10,$10,0xCCDD
        lbu $10,1($9)
        nop
        jal   print
        addu  $8,$10,$0
# lbu of 80FF7F01 at 2
        lui $11,0x80FF
        ori $11,$11,0x7F01
        lui $9,0x41
        sw $11,0($9)
        lui $10,0xAABB
        ori $10,$10,0xCCDD
        lbu $10,2($9)
        nop
        jal   print
        addu  $8,$10,$0
# lbu of 80FF7F01 at 3
        lui $11,0x80FF
        ori $11,$11,0x7F01
        lui $9,0x41
        sw $11,0($9)
        lui $10,0xAABB
        ori $10,$10,0xCCDD
        lbu $10,3($9)
        nop
        jal   print
        addu  $8,$10,$0
# lh of 80FF7F01 at 0
        lui $11,0x80FF
        ori $11,$11,0x7F01
        lui $9,0x41
        sw $11,0($9)
        lui $10,0xAABB
        ori $10,$10,0xCCDD
        lh $10,0($9)
        nop
        jal   print
        addu  $8,$10,$0
# lh of 80FF7F01 at 2
        lui $11,0x80FF
        ori $11,$11,0x7F01
        lui $9,0x41
        sw $11,0($9)
        lui $10,0xAABB
        ori $10,$10,0xCCDD
        lh $10,2($9)
        nop
        jal   print
        addu  $8,$10,$0
# lhu of 80FF7F01 at 0
        lui $11,0x80FF
        ori $11,$11,0x7F01
        lui $9,0x41
        sw $11,0($9)
        lui $10,0xAABB
        ori $10,$10,0xCCDD
        lhu $10,0($9)
        nop
        jal   print
        addu  $8,$10,$0
# lhu of 80FF7F01 at 2
        lui $11,0x80FF
        ori $11,$11,0x7F01
        lui $9,0x41
        sw $11,0($9)
        lui $10,0xAABB
        ori $10,$10,0xCCDD
        lhu $10,2($9)
        nop
        jal   print
        addu  $8,$10,$0
# lw of 80FF7F01 at 0
        lui $11,0x80FF
        ori $11,$11,0x7F01
        lui $9,0x41
        sw $11,0($9)
        lui $10,0xAABB
        ori $10,$10,0xCCDD
        lw $10,0($9)
        nop
        jal   print
        addu  $8,$10,$0
# lwl of 44332211 at 0
        lui $11,0x4433
        ori $11,$11,0x2211
        lui $9,0x41
        sw $11,0($9)
        lui $10,0xAABB
        ori $10,$10,0xCCDD
        lwl $10,0($9)
        nop
        jal   print
        addu  $8,$10,$0
# lwl of 44332211 at 1
        lui $11,0x4433
        ori $11,$11,0x2211
        lui $9,0x41
        sw $11,0($9)
        lui $10,0xAABB
        ori $10,$10,0xCCDD
        lwl $10,1($9)
        nop
        jal   print
        addu  $8,$10,$0
# lwl of 44332211 at 2
        lui $11,0x4433
        ori $11,$11,0x2211
        lui $9,0x41
        sw $11,0($9)
        lui $10,0xAABB
        ori $10,$10,0xCCDD
        lwl $10,2($9)
        nop
        jal   print
        addu  $8,$10,$0
# lwl of 44332211 at 3
        lui $11,0x4433
        ori $11,$11,0x2211
        lui $9,0x41
        sw $11,0($9)
        lui $10,0xAABB
        ori $10,$10,0xCCDD
        lwl $10,3($9)
        nop
        jal   print
        addu  $8,$10,$0
# lwr of 44332211 at 0
        lui $11,0x4433
        ori $11,$11,0x2211
        lui $9,0x41
        sw $11,0($9)
        lui $10,0xAABB
        ori $10,$10,0xCCDD
        lwr $10,0($9)
        nop
        jal   print
        addu  $8,$10,$0
# lwr of 44332211 at 1
        lui $11,0x4433
        ori $11,$11,0x2211
        lui $9,0x41
        sw $11,0($9)
        lui $10,0xAABB
        ori $10,$10,0xCCDD
        lwr $10,1($9)
        nop
        jal   print
        addu  $8,$10,$0
# lwr of 44332211 at 2
        lui $11,0x4433
        ori $11,$11,0x2211
        lui $9,0x41
        sw $11,0($9)
        lui $10,0xAABB
        ori $10,$10,0xCCDD
        lwr $10,2($9)
        nop
        jal   print
        addu  $8,$10,$0
# lwr of 44332211 at 3
        lui $11,0x4433
        ori $11,$11,0x2211
        lui $9,0x41
        sw $11,0($9)
        lui $10,0xAABB
        ori $10,$10,0xCCDD
        lwr $10,3($9)
        nop
        jal   print
        addu  $8,$10,$0
# lwr and lwl of the unaligned word at 1
        lui $11,0x4433
        ori $11,$11,0x2211
        lui $12,0x8877
        ori $12,$12,0x6655
        lui $9,0x41
        sw $11,0($9)
        sw $12,4($9)
        lwr $10,1($9)
        lwl $10,4($9)
        nop
        jal   print
        addu  $8,$10,$0
# exit
        addiu $2,$0,0
        syscall
