# Three processes put X and end. The fourth, at 00400014, puts Y, and is parked by a load where it has no entry.
        addiu $4,$0,88
        addiu $2,$0,1
        syscall
        addiu $2,$0,0
        syscall
        addiu $4,$0,89
        addiu $2,$0,1
        syscall
        lw    $8,0($0)
