# Adds 1 to the shared count forty times, and puts the count as a character.
        lui   $8,0x41
        addiu $9,$0,40
again:  lw    $10,0($8)
        addiu $9,$9,-1
        addiu $10,$10,1
        bne   $9,$0,again
        sw    $10,0($8)
        lw    $4,0($8)
        addiu $2,$0,1
        syscall
        addiu $2,$0,0
        syscall
