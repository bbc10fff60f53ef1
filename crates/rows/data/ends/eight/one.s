# Stores to eight pages again and again: to page k, from 0, at times 4 + 4k and 39 + 4k.
        lui   $8,0x41
        lui   $9,0x41
        ori   $9,$9,0x8000
        addu  $10,$8,$0
loop:   sw    $0,0($10)
        addiu $10,$10,0x1000
        bne   $10,$9,loop
        nop
        addu  $10,$8,$0
        beq   $0,$0,loop
        nop
