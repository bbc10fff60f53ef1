# Loads from each of 128 pages in turn, more than the TLB has slots. With a step of 4 in place of 4096 it is one page.
 lui $s0, 0x7FFF
 lui $s1, 0x1000
again: addiu $t8, $zero, 128
 addu $t1, $s1, $zero
page: lw $t2, 0($t1)
 addiu $t8, $t8, -1
 bne $t8, $zero, page
 addiu $t1, $t1, 4096
 addiu $s0, $s0, -1
 bne $s0, $zero, again
 nop
