# Writes an instruction over its own, at 00420000 where an operator grants the page of its code: it puts A, then B, and exits.
        lui   $t0,0x42
        lui   $t1,0x2404
        ori   $t1,$t1,65        # addiu $4,$0,65
again:  sw    $t1,24($t0)       # at 0040000C: denied at first
        addiu $v0,$zero,1
        nop
        nop                     # 00400018: this word is written
        syscall
        addiu $t1,$t1,1
        andi  $t2,$t1,3
        addiu $t3,$zero,3
        bne   $t2,$t3,again
        nop
        addiu $v0,$zero,0
        syscall
