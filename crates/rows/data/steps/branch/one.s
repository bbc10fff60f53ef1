# Branches over an instruction, and exits. A slot is a step of its branch's unit.
beq $0,$0,on
nop
nop
on: addiu $2,$0,0
syscall
