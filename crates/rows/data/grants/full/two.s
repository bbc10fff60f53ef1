# Exits behind one yield.
        addiu $v0,$zero,3
        syscall
        addiu $v0,$zero,0
        syscall
