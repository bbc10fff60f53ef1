# A program with labels.
# The words in `expected` are those of mipsel-linux-gnu-as -march=r3000 of binutils 2.40 under .set noreorder, .set noat and
# .set nomacro.
start: bltz $0,start
one: bgez $31,two
bltzal $30,start
bgezal $0,one
two: beq $0,$0,two
beq $1,$31,last
bne $31,$0,start
nop
blez $5,one
bgtz $31,last
j start
jal last
.word start
.word last
.byte 1
.byte -128
.byte 255
.byte 0x7F
.word 4294967295
.word -2147483648
.word 0xDEADbeef
.word -1
.space 8
j two
jal _x9
_x9: nop
bgezal $t0,_x9
bltzal $0,last
blez $0,_x9
bgtz $2,start
beq $s0,$s1,start
bne $t0,$t1,_x9
bltz $4,last
bgez $6,last
last: jr $31
nop
