# Divides its number by ten, lets all others do so, and puts the quotient; again for the rest.
        addiu $v0,$zero,5
        syscall
        addiu $t0,$zero,10
        divu  $v0,$t0
        addiu $v0,$zero,3
        syscall
        mflo  $a0
        addiu $a0,$a0,48
        addiu $v0,$zero,1
        syscall
        addiu $v0,$zero,3
        syscall
        mfhi  $a0
        addiu $a0,$a0,48
        addiu $v0,$zero,1
        syscall
        addiu $v0,$zero,0
        syscall
