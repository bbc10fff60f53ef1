# A branch ends a region: its slot, in the next one, loads from a third.
        .space 4088
        lui   $8,0xC0
        beq   $0,$0,on
        lw    $9,0($8)
on:     addiu $2,$0,0
        syscall
