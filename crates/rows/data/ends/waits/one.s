# Waits for a character, and stores one tick after it came.
        addiu $2,$0,9
        syscall
        lui   $8,0x41
        sw    $0,0($8)
