# A load in a slot is denied: the process is parked at its branch. Resumed, it completes the branch.
        beq   $zero,$zero,on
        lw    $t0,0($zero)
on:     addiu $v0,$zero,0
        syscall
