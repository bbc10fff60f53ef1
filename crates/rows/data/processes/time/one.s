# Asks for the time in the unit that begins at 1, and puts it.
addiu $2,$0,4
syscall
addiu $4,$2,48
addiu $2,$0,1
syscall
addiu $2,$0,0
syscall
