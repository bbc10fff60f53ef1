# Loads from fifteen pages of each of four regions, twice: from the first of each region, then from the second of each.
        lui   $11,0x40
        addiu $10,$0,2
again:  lui   $8,0x41
        addiu $9,$0,15
loop:   addu  $12,$8,$11
        addu  $13,$12,$11
        addu  $14,$13,$11
        lw    $1,0($8)
        lw    $2,0($12)
        lw    $3,0($13)
        lw    $4,0($14)
        addu  $16,$16,$1
        addu  $16,$16,$2
        addu  $16,$16,$3
        addu  $16,$16,$4
        addiu $8,$8,0x1000
        addiu $9,$9,-1
        bne   $9,$0,loop
        nop
        addiu $10,$10,-1
        bne   $10,$0,again
        nop
        addu  $4,$16,$0
        addiu $2,$0,1
        syscall
        addiu $2,$0,0
        syscall
