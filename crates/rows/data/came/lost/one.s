# Goes round 100 times, three instructions each time, and ends.
        addiu $9,$0,100
on:     addiu $9,$9,-1
        bne   $9,$0,on
        nop
        addiu $2,$0,0
        syscall
