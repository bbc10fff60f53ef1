# Counts for ever in register 8.
on:     addiu $8,$8,1
        beq   $0,$0,on
        nop
