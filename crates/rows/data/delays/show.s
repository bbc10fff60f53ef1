# Puts registers 8, 9, 10 and 31, eight hexadecimal digits a line. A process may come here at each of the first four words.
        nop
        nop
        nop
        nop
        addu  $19,$31,$0
        jal   tell
        nop
        jal   tell
        addu  $8,$9,$0
        jal   tell
        addu  $8,$10,$0
        jal   tell
        addu  $8,$19,$0
        addiu $2,$0,0
        syscall
# Puts register 8.
tell:   addiu $16,$0,8
digit:  srl   $4,$8,28
        sltiu $17,$4,10
        bne   $17,$0,put
        sll   $8,$8,4
        addiu $4,$4,7
put:    addiu $4,$4,48
        addiu $2,$0,1
        syscall
        addiu $16,$16,-1
        bne   $16,$0,digit
        nop
        addiu $4,$0,10
        addiu $2,$0,1
        syscall
        jr    $31
        nop
