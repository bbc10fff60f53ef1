# Gives its turn away, stores into its copy, reads the share, and is denied a store to that.
        addiu $2,$0,3
        syscall
        lui   $8,0x42
        sw    $8,0($8)
        lui   $8,0x43
        lw    $9,0($8)
        addiu $2,$0,3
        syscall
        sw    $9,4($8)
