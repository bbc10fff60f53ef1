# Waits, gets until nothing waits, and waits again.
on:     addiu $2,$0,9
        syscall
again:  addiu $2,$0,2
        syscall
        bgez  $2,again
        nop
        beq   $0,$0,on
        nop
