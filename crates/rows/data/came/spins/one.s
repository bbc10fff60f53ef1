# Goes round for ever, a unit of two ticks each time.
on:     beq   $0,$0,on
        nop
