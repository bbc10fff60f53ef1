# The slot of the jump lies in a page that is not in the buffer yet. The jump runs again where it is, and links the same.
# Puts the link, eight hexadecimal digits.
first:  addu  $8,$31,$0
        addiu $16,$0,8
digit:  srl   $4,$8,28
        sltiu $17,$4,10
        bne   $17,$0,put
        sll   $8,$8,4
        addiu $4,$4,7
put:    addiu $4,$4,48
        addiu $2,$0,1
        syscall
        addiu $16,$16,-1
        bne   $16,$0,digit
        nop
        addiu $2,$0,0
        syscall
        .space 4032
        jal   first
