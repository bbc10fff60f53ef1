        lw    $8,0($9)
        addu  $4,$8,$0
        jr    $31
        beq   $26,$0,out
        nop
out:    addiu $2,$0,0
        syscall
