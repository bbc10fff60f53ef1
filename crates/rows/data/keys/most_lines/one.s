# Does nothing for 20 ticks; then it puts each character that comes, for ever.
        .space 80
next:   addiu $v0,$zero,9
        syscall
        addiu $v0,$zero,2
        syscall
        addu  $a0,$v0,$zero
        addiu $v0,$zero,1
        syscall
        j     next
        nop
