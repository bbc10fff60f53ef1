# Does what the words of its plan tell, one after the other. Seven processes have their plans in one page, at 0040F000:
# each starts at a word of its own here, which tells where its plan begins. A word of a plan has eight hexadecimal digits,
# CXXPPYYM: C is what to do, with page XX, process PP, page or letter YY, and mode or place M, as in grants/stories/tell.s.
        j     go
        addiu $s0,$zero,0
        j     go
        addiu $s0,$zero,584
        j     go
        addiu $s0,$zero,1168
        j     go
        addiu $s0,$zero,1752
        j     go
        addiu $s0,$zero,2336
        j     go
        addiu $s0,$zero,2920
        j     go
        addiu $s0,$zero,3504
go:     lui   $t0,0x40
        ori   $t0,$t0,0xF000
        addu  $s0,$s0,$t0
        addiu $s6,$zero,10
        addiu $s7,$zero,11
next:   lw    $s1,0($s0)
        addiu $s0,$s0,4
        srl   $v0,$s1,28
        srl   $t0,$s1,24        # page XX, to $s2
        andi  $t0,$t0,15
        sll   $s2,$t0,22
        srl   $t0,$s1,20
        andi  $t0,$t0,15
        sll   $t0,$t0,12
        addu  $s2,$s2,$t0
        srl   $s3,$s1,12        # PP, to $s3
        andi  $s3,$s3,255
        srl   $t0,$s1,8         # page YY, to $s4
        andi  $t0,$t0,15
        sll   $s4,$t0,22
        srl   $t0,$s1,4
        andi  $t0,$t0,15
        sll   $t0,$t0,12
        addu  $s4,$s4,$t0
        andi  $s5,$s1,15        # M, to $s5
        addiu $t0,$v0,-6
        beq   $v0,$s6,load
        nop
        beq   $v0,$s7,store
        nop
        beq   $t0,$zero,give
        addiu $t0,$v0,-7
        beq   $t0,$zero,take
        addu  $a0,$s2,$zero
        addiu $t0,$v0,-8
        syscall                 # drop, yield, exit
        bne   $t0,$zero,next
        nop
say:    addiu $a0,$v0,48
put:    addiu $v0,$zero,1
        syscall
        j     next
        nop
give:   addu  $a1,$s3,$zero
        addu  $a0,$s2,$zero
        addu  $a2,$s4,$zero
        addu  $a3,$s5,$zero
        syscall
        j     say
        nop
take:   addu  $a0,$s3,$zero
        addu  $a1,$s2,$zero
        syscall
        j     say
        nop
load:   addu  $t0,$s2,$s5
        lbu   $a0,0($t0)
        nop
        bne   $a0,$zero,put
        nop
        addiu $a0,$zero,46
        j     put
        nop
store:  srl   $t1,$s1,4
        addu  $t0,$s2,$s5
        sb    $t1,0($t0)
        j     next
        nop
