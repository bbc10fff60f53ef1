.space 65536
nop
