# Stores 42, loads it, puts it and exits.
lui $8,0x41
addiu $9,$0,66
sw $9,0($8)
lw $4,0($8)
addiu $2,$0,1
syscall
addiu $2,$0,0
syscall
