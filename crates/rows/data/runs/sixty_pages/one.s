# Loads from sixty pages in turn, by register 26, which a refill loses.
        lui   $8,0x41
        lui   $9,0x44
        ori   $9,$9,0xC000
loop:   addu  $26,$8,$0
        lw    $1,0($26)
        addiu $8,$8,0x1000
        bne   $8,$9,loop
        nop
        addiu $2,$0,0
        syscall
