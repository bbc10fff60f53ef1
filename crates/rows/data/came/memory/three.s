# Stores to the last word that a user has, and waits for ever.
        lui   $8,0x7FFF
        ori   $8,$8,0xFFFC
        addiu $9,$0,3
        sw    $9,0($8)
        addiu $2,$0,9
        syscall
