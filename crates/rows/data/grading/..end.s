# Puts A and ends, in five units.
addiu $4,$0,65
addiu $2,$0,1
syscall
addiu $2,$0,0
syscall
