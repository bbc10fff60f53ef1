# Stores its number to a page of its own, yields, and gives itself a copy of the page. There is no frame for it, 18:
# it puts j.
        addiu $v0,$zero,5
        syscall
        addu  $s0,$v0,$zero
        lui   $s1,0x41
        sb    $s0,36($s1)
        addiu $v0,$zero,3
        syscall
        lbu   $s2,36($s1)
        addu  $a0,$s1,$zero
        addu  $a1,$s0,$zero
        lui   $a2,0x42
        addiu $a3,$zero,3
        addiu $v0,$zero,6
        syscall
        subu  $s2,$s2,$s0
        addu  $a0,$v0,$s2
        addiu $a0,$a0,88
        addiu $v0,$zero,1
        syscall
        addiu $v0,$zero,0
        syscall
