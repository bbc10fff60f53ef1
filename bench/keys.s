# Asks for characters again and again, and puts each that comes. Either way a call is every fourth tick.
loop:   addiu $v0, $zero, 2
        syscall
        bltz  $v0, loop
        addu  $a0, $v0, $zero
        addiu $v0, $zero, 1
        syscall
        j     loop
        nop
