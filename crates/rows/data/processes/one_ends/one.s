# Puts its number every five ticks; the second process ends behind its third, the others go on.
        addiu $v0,$zero,5
        syscall
        addu  $s1,$v0,$zero
        addiu $s0,$v0,48
        addiu $s2,$zero,2
        addiu $s3,$zero,3
        bne   $s1,$s2,loop
        nop
few:    addu  $a0,$s0,$zero
        addiu $v0,$zero,1
        syscall
        addiu $s3,$s3,-1
        bne   $s3,$zero,few
        nop
        addiu $v0,$zero,0
        syscall
loop:   addu  $a0,$s0,$zero
        addiu $v0,$zero,1
        syscall
        beq   $zero,$zero,loop
        nop
