# A unit of two ticks from time 1 to 3, with a store in its slot, and a store after it.
        lui   $8,0x41
        beq   $0,$0,on
        sw    $0,0($8)
on:     sw    $0,0($8)
