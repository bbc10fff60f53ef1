# Gives its turn away, and waits for a character.
        addiu $2,$0,3
        syscall
        addiu $2,$0,9
        syscall
