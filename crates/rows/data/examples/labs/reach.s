# Goes twenty times over the first 80 pages from 00410000, and adds up a word of each.
pass:   lui   $8,0x41
        addiu $9,$0,80
page:   lw    $10,0($8)
        nop
        addu  $11,$11,$10
        addiu $8,$8,4096
        addiu $9,$9,-1
        bne   $9,$0,page
        nop
        addiu $12,$12,1
        addiu $13,$0,20
        subu  $13,$13,$12
        bne   $13,$0,pass
        nop
        addiu $2,$0,0
        syscall
