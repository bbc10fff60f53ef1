# Puts ABC, stores a word, waits for a character, puts DEF, stores another word, and ends.
        addiu $2,$0,1
        addiu $4,$0,65
        syscall
        addiu $2,$0,1
        addiu $4,$0,66
        syscall
        addiu $2,$0,1
        addiu $4,$0,67
        syscall
        lui   $8,0x0041
        sw    $4,0($8)
        addiu $2,$0,9
        syscall
        addiu $2,$0,1
        addiu $4,$0,68
        syscall
        addiu $2,$0,1
        addiu $4,$0,69
        syscall
        addiu $2,$0,1
        addiu $4,$0,70
        syscall
        sw    $4,4($8)
        addiu $2,$0,0
        syscall
