# Lets the other process run into its denial, gives it the page, and exits.
        addiu $v0,$zero,3
        syscall
        lui   $a0,0x41
        addiu $t0,$zero,33
        sb    $t0,0($a0)
        addiu $a1,$zero,2
        addu  $a2,$a0,$zero
        addiu $a3,$zero,1
        addiu $v0,$zero,6
        syscall
        addiu $v0,$zero,0
        syscall
