# Does nothing; an operator changes what it has.
on:     beq $0,$0,on
        nop
