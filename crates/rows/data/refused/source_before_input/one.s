.word 0x24040041
lw $1
