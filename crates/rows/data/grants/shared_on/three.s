# Stores to what it was given, yields, and stores there again.
        lui   $8,0x41
        sw    $0,0($8)
        addiu $2,$0,3
        syscall
        sw    $0,0($8)
