# Stores a half and a byte to its copy, and waits for ever.
        lui   $8,0x0043
        ori   $9,$0,0xABCD
        sh    $9,8($8)
        sb    $9,15($8)
        addiu $2,$0,9
        syscall
