# A comment has no bytes.
main:   addiu $2,$0,0
        syscall
