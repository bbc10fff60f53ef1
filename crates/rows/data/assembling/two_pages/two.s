# Puts the sum of the bytes of four pages, and single bytes of the first two, each 48 higher.
lui $8,0x41
addiu $9,$0,4
page: addu $4,$0,$0
addu $10,$8,$0
addiu $11,$8,4096
byte: lbu $12,0($10)
addiu $10,$10,1
addu $4,$4,$12
bne $10,$11,byte
nop
addiu $4,$4,48
addiu $2,$0,1
syscall
addu $8,$11,$0
addiu $9,$9,-1
bne $9,$0,page
nop
lui $8,0x41
lbu $4,4093($8)
nop
addiu $4,$4,48
addiu $2,$0,1
syscall
lbu $4,4094($8)
nop
addiu $4,$4,48
addiu $2,$0,1
syscall
lbu $4,4095($8)
nop
addiu $4,$4,48
addiu $2,$0,1
syscall
lbu $4,4096($8)
nop
addiu $4,$4,48
addiu $2,$0,1
syscall
lbu $4,4097($8)
nop
addiu $4,$4,48
addiu $2,$0,1
syscall
lbu $4,8191($8)
nop
addiu $4,$4,48
addiu $2,$0,1
syscall
addiu $2,$0,0
syscall
