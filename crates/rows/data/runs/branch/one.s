# A branch over an instruction.
beq $0,$0,on
nop
nop
on: addiu $2,$0,0
syscall
