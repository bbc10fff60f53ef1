# Does nothing five times; then it waits, and puts each character until none is left.
        nop
        nop
        nop
        nop
        nop
        addiu $2,$0,9
        syscall
next:   addiu $2,$0,2
        syscall
        bltz  $2,done
        addu  $4,$2,$0
        addiu $2,$0,1
        syscall
        beq   $0,$0,next
        nop
done:   addiu $2,$0,0
        syscall
