# Stores to the first word and to the last of the data, shares the page with process 2 at 00420000, gives it a copy at 00430000, stores to
# the second word, and waits for ever.
        lui   $8,0x0041
        lui   $9,0x1234
        ori   $9,$9,0x5678
        sw    $9,0($8)
        sw    $9,4092($8)
        addu  $4,$8,$0
        addiu $5,$0,2
        lui   $6,0x0042
        addiu $7,$0,1
        addiu $2,$0,6
        syscall
        lui   $6,0x0043
        addiu $7,$0,3
        addiu $2,$0,6
        syscall
        addiu $9,$0,-1
        sw    $9,4($8)
        addiu $2,$0,9
        syscall
