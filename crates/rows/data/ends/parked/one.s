# Is parked at its first instruction; stores two ticks after it went on.
        lw    $9,0($0)
        lui   $8,0x41
        sw    $0,0($8)
