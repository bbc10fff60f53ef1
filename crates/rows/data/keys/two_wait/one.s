# The first process yields, so that it waits last. Each then waits, puts its number and the character that came, or a
# hyphen where another had taken it, and yields, again and again.
        addiu $v0,$zero,5
        syscall
        addiu $s0,$v0,48
        addiu $t0,$zero,1
        bne   $v0,$t0,loop
        nop
        addiu $v0,$zero,3
        syscall
loop:   addiu $v0,$zero,9
        syscall
        addu  $a0,$s0,$zero
        addiu $v0,$zero,1
        syscall
        addiu $v0,$zero,2
        syscall
        bgez  $v0,some
        addu  $a0,$v0,$zero
        addiu $a0,$zero,45
some:   addiu $v0,$zero,1
        syscall
        addiu $v0,$zero,3
        syscall
        j     loop
        nop
