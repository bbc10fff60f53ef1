# Stores at time 1 of its own and each third tick of its own from there on.
        lui   $8,0x41
loop:   sw    $0,0($8)
        beq   $0,$0,loop
        nop
