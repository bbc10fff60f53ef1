# The other process starts where it has no page: it is parked at once. This one writes its first word, and gives it the page.
        addiu $v0,$zero,3
        syscall
        lui   $t0,0x40
        lui   $t1,0x2404
        ori   $t1,$t1,87        # addiu $4,$0,87
        sw    $t1,0x1000($t0)
        ori   $a0,$t0,0x1000
        addiu $a1,$zero,2
        lui   $a2,0x60
        addiu $a3,$zero,3
        addiu $v0,$zero,6
        syscall
        addiu $t1,$t1,1
        sw    $t1,0x1000($t0)   # too late: it has a copy
        addiu $v0,$zero,0
        syscall
        .space 4032
        nop                     # part 1: from 00600000 for the other
        addiu $v0,$zero,1
        syscall
        lui   $t0,0x60
        lui   $t1,0x2404
        ori   $t1,$t1,88
        sw    $t1,28($t0)
        nop                     # this word is written: it puts X
        addiu $v0,$zero,1
        syscall
        addiu $v0,$zero,0
        syscall
