# Nobody else is there: it yields and goes on at once.
        addiu $v0,$zero,3
        syscall
        addiu $a0,$v0,65
        addiu $v0,$zero,1
        syscall
        addiu $v0,$zero,0
        syscall
