# Looks at the time again and again. Where 100 ticks have gone since, the others have run: it puts its number and the time,
# in five hexadecimal digits.
        addiu $v0,$zero,5
        syscall
        addiu $s0,$v0,48
look:   addiu $v0,$zero,4
        syscall
        subu  $t0,$v0,$s1
        addu  $s1,$v0,$zero
        sltiu $t0,$t0,100
        bne   $t0,$zero,look
        nop
        addu  $a0,$s0,$zero
        addiu $v0,$zero,1
        syscall
        addiu $a0,$zero,32
        addiu $v0,$zero,1
        syscall
        addiu $s2,$zero,16
digit:  srlv  $a0,$s1,$s2
        andi  $a0,$a0,15
        sltiu $t0,$a0,10
        bne   $t0,$zero,put
        addiu $a0,$a0,48
        addiu $a0,$a0,7         # A to F
put:    addiu $v0,$zero,1
        syscall
        addiu $s2,$s2,-4
        bgez  $s2,digit
        nop
        addiu $a0,$zero,10
        addiu $v0,$zero,1
        syscall
        addiu $v0,$zero,4
        syscall
        j     look
        addu  $s1,$v0,$zero
