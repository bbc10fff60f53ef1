j there
nop
beq $0,$0,nowhere
nop
