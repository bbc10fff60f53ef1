# Stores to the page, which it may only read: the first process's rule denies it.
        lui   $8,0x41
        sw    $0,0($8)
