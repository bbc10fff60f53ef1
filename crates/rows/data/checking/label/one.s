j there
nop
