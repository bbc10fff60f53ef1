# Shares a page with process 2 for writing at 00430000, and gives it a copy at 00440000.
        lui $4,0x43
        addiu $5,$0,2
        lui $6,0x43
        addiu $7,$0,2
        addiu $2,$0,6
        syscall
        lui $6,0x44
        addiu $7,$0,3
        addiu $2,$0,6
        syscall
        addiu $2,$0,3
        syscall
        addiu $2,$0,0
        syscall
