# Waits in the unit from 3 to 4; then it puts what came, and exits.
        addiu $v0,$zero,9
        syscall
        addiu $v0,$zero,2
        syscall
        addu  $a0,$v0,$zero
        addiu $v0,$zero,1
        syscall
        addiu $v0,$zero,0
        syscall
