# The unit of the branch at the end of the first page takes 61 machine instructions, more than any other can.
# The process gives itself a copy of page 00000000, so that a store there has to wait for a page of its own.
.space 3800
addiu $4,$0,0
addiu $5,$0,1
addiu $6,$0,0x1000
addiu $7,$0,3
addiu $2,$0,6
syscall
lui $8,0x80
lui $10,0xC0
nop
nop
nop
nop
# The page of the page table of 00C00000 comes into the buffer, and stays there.
lw $11,0x1000($10)
nop
nop
nop
nop
nop
nop
nop
nop
nop
nop
nop
nop
nop
nop
nop
nop
nop
nop
nop
nop
nop
nop
nop
nop
nop
nop
nop
nop
nop
# The page of the slot comes into the buffer, 14 slots below that of this page.
lw $12,0($8)
nop
nop
nop
nop
nop
nop
nop
nop
nop
nop
nop
nop
nop
nop
nop
nop
nop
nop
nop
nop
nop
nop
nop
nop
nop
nop
nop
nop
nop
# Commands at time 60 have taken the pages of the page tables of this page and of the slot's out of the buffer.
lui $26,0xC0
beq $0,$0,on
# The slot, on the next page. It stores to 00C00100 until a refill clears register 26, and then to 00000100. The refill for
# 00C00100 writes where this page's entry was, the next one where the slot's was.
sw $9,0x100($26)
on: addiu $2,$0,0
syscall
