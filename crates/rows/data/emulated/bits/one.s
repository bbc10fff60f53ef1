# Puts the results of bits, eight hexadecimal digits a line: those of qemu-mipsel 7.2 on the words
# that GNU as 2.40 makes of the same text with -march=r3000.
# Behind a jump to the cases, a routine puts register 8.
        j     cases
        nop
print:  addiu $16,$0,8
digit:  srl   $4,$8,28
        sltiu $17,$4,10
        bne   $17,$0,put
        sll   $8,$8,4
        addiu $4,$4,7
put:    addiu $4,$4,48
        addiu $2,$0,1
        syscall
        addiu $16,$16,-1
        bne   $16,$0,digit
        nop
        addiu $4,$0,10
        addiu $2,$0,1
        syscall
        jr    $31
        nop
cases:
# and of DEADBEEF and 0FF00FF0
        lui $9,0xDEAD
        ori $9,$9,0xBEEF
        lui $11,0xFF0
        ori $11,$11,0xFF0
        and $10,$9,$11
        jal   print
        addu  $8,$10,$0
# or of DEADBEEF and 0FF00FF0
        lui $9,0xDEAD
        ori $9,$9,0xBEEF
        lui $11,0xFF0
        ori $11,$11,0xFF0
        or $10,$9,$11
        jal   print
        addu  $8,$10,$0
# xor of DEADBEEF and FFFFFFFF
        lui $9,0xDEAD
        ori $9,$9,0xBEEF
        addiu $11,$0,-1
        xor $10,$9,$11
        jal   print
        addu  $8,$10,$0
# nor of DEADBEEF and 0FF00FF0
        lui $9,0xDEAD
        ori $9,$9,0xBEEF
        lui $11,0xFF0
        ori $11,$11,0xFF0
        nor $10,$9,$11
        jal   print
        addu  $8,$10,$0
# nor of 00000000 and 00000000
        addiu $9,$0,0
        addiu $11,$0,0
        nor $10,$9,$11
        jal   print
        addu  $8,$10,$0
# andi of DEADBEEF and 65295
        lui $9,0xDEAD
        ori $9,$9,0xBEEF
        andi $10,$9,0xFF0F
        jal   print
        addu  $8,$10,$0
# ori of 80000000 and 65535
        lui $9,0x8000
        ori $10,$9,0xFFFF
        jal   print
        addu  $8,$10,$0
# xori of FFFFFFFF and 65535
        addiu $9,$0,-1
        xori $10,$9,0xFFFF
        jal   print
        addu  $8,$10,$0
# lui of FFFF
        lui $10,0xFFFF
        jal   print
        addu  $8,$10,$0
# exit
        addiu $2,$0,0
        syscall
