lw $1
