# Waits until it gets a character of its line, puts it, and exits.
wait:   addiu $v0,$zero,9
        syscall
        addiu $v0,$zero,2
        syscall
        bltz  $v0,wait
        addu  $a0,$v0,$zero
        addiu $v0,$zero,1
        syscall
        addiu $v0,$zero,0
        syscall
