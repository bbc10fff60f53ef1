# Waits for a character, puts it and exits: where it comes at time t, at t + 7.
addiu $v0,$zero,9
syscall
addiu $v0,$zero,2
syscall
addu  $a0,$v0,$zero
addiu $v0,$zero,1
syscall
addiu $v0,$zero,0
syscall
