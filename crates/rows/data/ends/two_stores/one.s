# Stores twice: the second store begins at time 2.
        lui   $8,0x41
        sw    $0,0($8)
        sw    $0,0($8)
