# Process 1 gives its page: shared for reading, shared for writing, and a copy. Then it stores, and gives its turn away.
        lui   $4,0x41
        addiu $5,$0,2
        lui   $6,0x41
        addiu $7,$0,1
        addiu $2,$0,6
        syscall
        lui   $6,0x42
        addiu $7,$0,2
        addiu $2,$0,6
        syscall
        lui   $6,0x43
        addiu $7,$0,3
        addiu $2,$0,6
        syscall
        addiu $8,$0,97
        sw    $8,0($4)
        addiu $2,$0,3
        syscall
        lw    $9,4($4)
        addiu $2,$0,0
        syscall
# Process 2 loads what was stored, by each of the three, stores by the second, and loads again.
second: lui   $8,0x41
        lw    $9,0($8)
        lui   $10,0x42
        lw    $11,0($10)
        lui   $12,0x43
        lw    $13,0($12)
        addiu $14,$0,98
        sw    $14,4($10)
        lw    $15,4($8)
        sw    $14,8($12)
        lw    $16,8($8)
        sw    $14,12($8)
