# Shares its page with process 2, yields, takes it back from there, and exits.
        lui   $8,0x41
        addu  $4,$8,$0
        addiu $5,$0,2
        addu  $6,$8,$0
        addiu $7,$0,2           # to write
        addiu $2,$0,6
        syscall
        addiu $2,$0,3
        syscall
        addiu $4,$0,2
        addu  $5,$8,$0
        addiu $2,$0,7
        syscall
        addiu $2,$0,0
        syscall
