# The first unit takes two ticks. Then it does nothing for 30 ticks, and puts each character that comes, for ever.
        j     on
        nop
on:     .space 120
next:   addiu $v0,$zero,9
        syscall
        addiu $v0,$zero,2
        syscall
        addu  $a0,$v0,$zero
        addiu $v0,$zero,1
        syscall
        j     next
        nop
