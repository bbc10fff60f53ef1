# Stores its number and 32 into its own page, yields, and puts what is there.
addiu $2,$0,5
syscall
addiu $9,$2,32
lui $8,0x41
sb $9,0($8)
addiu $2,$0,3
syscall
lbu $4,0($8)
addiu $2,$0,1
syscall
addiu $2,$0,0
syscall
