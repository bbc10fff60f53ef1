# Puts what is at 00410000: denied at first; the other process gives it the page, and an operator resumes it.
        lui   $t0,0x41
        lbu   $a0,0($t0)
        addiu $v0,$zero,1
        syscall
        addiu $v0,$zero,0
        syscall
