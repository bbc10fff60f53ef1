# Puts its number again and again, every five ticks.
        addiu $2,$0,5
        syscall
        addiu $16,$2,48
loop:   addu  $4,$16,$0
        addiu $2,$0,1
        syscall
        beq   $0,$0,loop
        nop
