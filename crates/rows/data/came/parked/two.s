# Reads the third word of the data, which is granted, and stores to it, which is not.
        lui   $8,0x0041
        lw    $9,8($8)
        sw    $0,8($8)
