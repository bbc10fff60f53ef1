# Loads from sixty pages: from page k, from 0, at time 3 + 4k. Exits at time 245.
        lui   $8,0x41
        lui   $9,0x44
        ori   $9,$9,0xC000
loop:   lw    $1,0($8)
        addiu $8,$8,0x1000
        bne   $8,$9,loop
        nop
        addiu $2,$0,0
        syscall
