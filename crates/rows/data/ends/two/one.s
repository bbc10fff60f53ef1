# Stores, yields, and stores: process 1 at times 1 and 8, process 2 at times 5 and, where process 1 is denied its
# second store, 9.
        lui   $8,0x41
        sw    $0,0($8)
        addiu $2,$0,3
        syscall
        sw    $0,0($8)
