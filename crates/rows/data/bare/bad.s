frob $1,$2
addiu $2,$0,1
x: nop
x: nop
