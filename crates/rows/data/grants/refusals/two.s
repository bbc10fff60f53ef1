# Process 2 exits. Process 3 waits.
        addiu $v0,$zero,0
        syscall
        addiu $v0,$zero,9
        syscall
