# Stores a, shares the page with process 2 for writing, gives process 3 a copy, and stores b.
        lui   $8,0x41
        addiu $9,$0,97
        sb    $9,0($8)
        addu  $4,$8,$0
        addiu $5,$0,2
        addu  $6,$8,$0
        addiu $7,$0,2
        addiu $2,$0,6
        syscall
        addiu $5,$0,3
        addiu $7,$0,3
        addiu $2,$0,6
        syscall
        addiu $9,$0,98
        sb    $9,0($8)
        addiu $2,$0,0
        syscall
