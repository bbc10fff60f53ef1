# Puts its own number.
addiu $2,$0,5
syscall
addiu $4,$2,48
addiu $2,$0,1
syscall
addiu $2,$0,0
syscall
