# Stores 1 to the first word of the data, puts A, and ends.
        lui   $8,0x0041
        addiu $9,$0,1
        sw    $9,0($8)
        addiu $4,$0,65
        addiu $2,$0,1
        syscall
        addiu $2,$0,0
        syscall
