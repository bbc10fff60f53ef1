# Waits in the unit that begins at time 1. Behind it, it puts the time of the third unit from there, as a digit, and the
# character that came.
        addiu $v0,$zero,9
        syscall
        addu  $s0,$v0,$zero     # 0
        addiu $v0,$zero,4
        syscall
        addu  $a0,$v0,$s0
        addiu $a0,$a0,48
        addiu $v0,$zero,1
        syscall
        addiu $v0,$zero,2
        syscall
        addu  $a0,$v0,$zero
        addiu $v0,$zero,1
        syscall
        addiu $v0,$zero,0
        syscall
