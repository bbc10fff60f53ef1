# Waits for a character of its line, and none comes.
        addiu $v0,$zero,9
        syscall
        addiu $a0,$zero,88
        addiu $v0,$zero,1
        syscall
        addiu $v0,$zero,0
        syscall
