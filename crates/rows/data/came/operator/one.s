# Reads a word of the data, and stores it to the next, for ever.
        lui   $8,0x0041
on:     lw    $9,0($8)
        nop
        sw    $9,4($8)
        beq   $0,$0,on
        nop
