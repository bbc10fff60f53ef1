# Three calls about a page that it has by its rule, without give. It puts each answer, 64 added.
        lui   $s0,0x41
        addiu $t0,$zero,65
        sb    $t0,0($s0)
        addu  $a0,$s0,$zero     # give: share the page for reading with itself: 15, O, since it may not be given
        addiu $a1,$zero,1
        lui   $a2,0x42
        addiu $a3,$zero,1
        addiu $v0,$zero,6
        syscall
        addiu $a0,$v0,64
        addiu $v0,$zero,1
        syscall
        addiu $a0,$zero,1       # take: 19, S, since nobody gave it
        lui   $a1,0x41
        addiu $v0,$zero,7
        syscall
        addiu $a0,$v0,64
        addiu $v0,$zero,1
        syscall
        addu  $a0,$s0,$zero     # drop: 0, @
        addiu $v0,$zero,8
        syscall
        addiu $a0,$v0,64
        addiu $v0,$zero,1
        syscall
        lbu   $a0,0($s0)        # it is gone
        addiu $v0,$zero,1
        syscall
        lui   $t0,0x42
        lbu   $t0,0($t0)
        addiu $v0,$zero,0
        syscall
