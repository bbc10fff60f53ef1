# Does what the words from 0040F000 on tell, one after the other. A word has eight hexadecimal digits: CXXPPYYM.
# C is a call: 6 is give, from page XX to page YY of process PP with mode M; 7 is take, of page XX of process PP;
# 8 is drop, of page XX; 3 is yield; 0 is exit. What 6, 7 and 8 answer is put, 48 added: 0, and ; to C for 11 to 19.
# 10 loads from page XX at M and puts what is there, a full stop for 0; 11 stores there the letter YY.
# Page XX is at 00400000 times its first digit and 00001000 times its second.
        lui   $s0,0x40
        ori   $s0,$s0,0xF000
        addiu $s6,$zero,10
next:   lw    $s1,0($s0)
        addiu $s0,$s0,4
        srl   $v0,$s1,28
        srl   $t0,$s1,24        # page XX, to $s2
        andi  $t0,$t0,15
        sll   $s2,$t0,22
        srl   $t0,$s1,20
        andi  $t0,$t0,15
        sll   $t0,$t0,12
        addu  $s2,$s2,$t0
        srl   $s3,$s1,12        # PP, to $s3
        andi  $s3,$s3,255
        srl   $t0,$s1,8         # page YY, to $s4
        andi  $t0,$t0,15
        sll   $s4,$t0,22
        srl   $t0,$s1,4
        andi  $t0,$t0,15
        sll   $t0,$t0,12
        addu  $s4,$s4,$t0
        andi  $s5,$s1,15        # M, to $s5
        beq   $v0,$s6,load
        addiu $t0,$v0,-11
        beq   $t0,$zero,store
        addiu $t0,$v0,-6
        beq   $t0,$zero,give
        addiu $t0,$v0,-7
        beq   $t0,$zero,take
        addu  $a0,$s2,$zero
        syscall                 # drop, yield, exit
        addiu $t0,$s1,0
        srl   $t0,$t0,28
        addiu $t0,$t0,-8
        bne   $t0,$zero,next
        nop
say:    addiu $a0,$v0,48
put:    addiu $v0,$zero,1
        syscall
        j     next
        nop
give:   addu  $a0,$s2,$zero
        addu  $a1,$s3,$zero
        addu  $a2,$s4,$zero
        addu  $a3,$s5,$zero
        syscall
        j     say
        nop
take:   addu  $a0,$s3,$zero
        addu  $a1,$s2,$zero
        syscall
        j     say
        nop
load:   addu  $t0,$s2,$s5
        lbu   $a0,0($t0)
        nop
        bne   $a0,$zero,put
        nop
        addiu $a0,$zero,46
        j     put
        nop
store:  srl   $t1,$s1,4
        addu  $t0,$s2,$s5
        sb    $t1,0($t0)
        j     next
        nop
