# Gives the other process the page for reading.
        lui   $8,0x41
        addu  $4,$8,$0
        addiu $5,$0,2
        addu  $6,$8,$0
        addiu $7,$0,1
        addiu $2,$0,6
        syscall
        addiu $2,$0,0
        syscall
