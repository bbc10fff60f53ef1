# Gives its turn away, puts B, and stores where it has no page.
        addiu $2,$0,3
        syscall
        addiu $4,$0,66
        addiu $2,$0,1
        syscall
        sw    $0,0($0)
