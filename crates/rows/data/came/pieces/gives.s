# Gives its code, which it may not give on, three times, and ends. Each time the log has a line.
        lui   $4,0x0040
        addiu $5,$0,1
        lui   $6,0x0050
        addiu $7,$0,1
        addiu $2,$0,6
        syscall
        addiu $2,$0,6
        syscall
        addiu $2,$0,6
        syscall
        addiu $2,$0,0
        syscall
