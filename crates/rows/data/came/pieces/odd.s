# Puts Z, waits for a character, and then goes round, two ticks each time: from an odd time on, so that a unit is under way at each even one.
        addiu $4,$0,90
        addiu $2,$0,1
        syscall
        addiu $2,$0,9
        syscall
        nop
on:     beq   $0,$0,on
        nop
