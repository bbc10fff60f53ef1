# Process 1 goes round and yields; process 2 exits; process 3 stops; process 4 waits, and puts W.
first:  addiu $v0,$zero,3
        syscall
        beq   $zero,$zero,first
        nop
        addiu $v0,$zero,0       # process 2, from 00400010
        syscall
        break                   # process 3, from 00400018
        addiu $v0,$zero,9       # process 4, from 0040001C
        syscall
        addiu $a0,$zero,87
        addiu $v0,$zero,1
        syscall
        addiu $v0,$zero,0
        syscall
