# Stores twice to one page, and then does nothing for ever.
        lui   $t0,0x41
        sw    $zero,0($t0)
        sw    $zero,0($t0)
