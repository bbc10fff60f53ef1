frob $1,$2
nop
LW $1,0($2)
