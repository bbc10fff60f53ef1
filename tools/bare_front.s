j setup
nop
mfc0 $26, $4
mfc0 $27, $14
lw $26, 0($26)
nop
mtc0 $26, $2
nop
{write}
jr $27
rfe
j general
.word body
general: mfc0 $26, $13
mfc0 $27, $14
mtc0 $zero, $13
lui $24, 0xBFE8
lw $24, 0x30($24)
addiu $25, $25, 1
lui $24, 0xBFE0
lw $24, 8($24)
nop
andi $24, $26, 0x7C
beq $24, $zero, back
nop
addiu $27, $27, 4
bgez $26, back
nop
addiu $27, $27, 4
back: jr $27
rfe
setup: lui $8, 0x8000
lui $9, 0x8040
addiu $10, $9, 36
copy: lw $11, 8($9)
addiu $9, $9, 4
sw $11, 0($8)
bne $9, $10, copy
addiu $8, $8, 4
lw $11, 8($9)
lui $8, 0x8000
sw $11, 0x80($8)
lui $8, 0x8060
mtc0 $8, $4
lui $17, 0x8050
lui $18, 0xBFE8
lui $19, 0xBFE0
lui $20, 0xBFF0
lui $21, 0xC000
lui $16, 0x0041
ori $22, $16, 0x1000
ori $23, $16, 0x2000
{drawn}
lw $10, 12($9)
nop
jr $10
rfe
body:
