# Calls that are none answer FFFFFFFF, and change nothing else: a question mark for each.
        addiu $s0,$zero,63
        addiu $v0,$zero,10
        syscall
        addiu $a0,$v0,64
        addiu $v0,$zero,1
        syscall
        addiu $v0,$zero,11
        syscall
        addiu $a0,$v0,64
        addiu $v0,$zero,1
        syscall
        addiu $v0,$zero,257
        syscall
        addiu $a0,$v0,64
        addiu $v0,$zero,1
        syscall
        addiu $v0,$zero,-1
        syscall 5
        addiu $a0,$v0,64
        addiu $v0,$zero,1
        syscall
        lui   $v0,0x8000
        syscall
        addiu $a0,$v0,64
        addiu $v0,$zero,1
        syscall
        lui   $v0,1             # its low half is 0, and it is no exit
        syscall
        addiu $a0,$v0,64
        addiu $v0,$zero,1
        syscall
        addiu $v0,$zero,0
        syscall
