# The first of three processes shares its page with the others, takes back, drops and ends.
lui $4,0x0041
addiu $5,$0,2
lui $6,0x0042
addiu $7,$0,1
addiu $2,$0,6
syscall
addiu $5,$0,3
lui $6,0x0043
addiu $7,$0,2
addiu $2,$0,6
syscall
addiu $5,$0,2
lui $6,0x0044
addiu $7,$0,3
addiu $2,$0,6
syscall
addiu $4,$0,3
lui $5,0x0043
addiu $2,$0,7
syscall
addiu $2,$0,3
syscall
lui $4,0x0041
addiu $2,$0,8
syscall
addiu $2,$0,0
syscall
# the second, at 0040006C: it shares its share with the third, drops it and ends
lui $4,0x0042
addiu $5,$0,3
lui $6,0x0045
addiu $7,$0,1
addiu $2,$0,6
syscall
addiu $2,$0,3
syscall
lui $4,0x0042
addiu $2,$0,8
syscall
addiu $2,$0,0
syscall
# the third, at 004000A0
again: addiu $2,$0,3
syscall
j again
nop
