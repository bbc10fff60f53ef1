# Waits for characters, puts all that are there, and exits.
        addiu $2,$0,9
        syscall
next:   addiu $2,$0,2
        syscall
        bltz  $2,done
        addu  $4,$2,$0
        addiu $2,$0,1
        syscall
        beq   $0,$0,next
        nop
done:   addiu $2,$0,0
        syscall
