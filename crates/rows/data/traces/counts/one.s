# Asks who it is and what time, gives two copies and a share, is refused a third copy, stores over what it gave, makes a call that
# there is not, waits, puts what was typed, and is denied a load and then a store.
        addiu $2,$0,5
        syscall
        addiu $2,$0,4
        syscall
        lui   $4,0x41
        addiu $5,$0,2
        lui   $6,0x42
        addiu $7,$0,3
        addiu $2,$0,6
        syscall
        addiu $2,$0,6
        syscall
        addiu $4,$4,4096
        addiu $6,$6,4096
        addiu $2,$0,6
        syscall
        lui   $6,0x43
        addiu $7,$0,1
        addiu $2,$0,6
        syscall
        addiu $9,$0,97
        sw    $9,0($4)
        addiu $2,$0,77
        syscall
        addiu $2,$0,9
        syscall
        addiu $2,$0,2
        syscall
        addu  $4,$2,$0
        addiu $2,$0,1
        syscall
        lw    $9,0($0)
        nop
        sw    $9,0($0)
        addiu $2,$0,0
        syscall
