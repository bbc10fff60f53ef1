# Loads twice from one page, and then does nothing for ever.
        lui   $t0,0x41
        lw    $t1,0($t0)
        lw    $t1,0($t0)
