# Puts 1 where the third word of this source is 03BF2021.
        j     on            # over the word
        nop
        addu  $a0,$sp,$ra
on:     lui   $t0,0x40
        lw    $t1,8($t0)
        lui   $t2,0x03BF
        ori   $t2,$t2,0x2021
        xor   $t1,$t1,$t2
        sltiu $t1,$t1,1
        addiu $a0,$t1,48
        addiu $v0,$zero,1
        syscall
        addiu $v0,$zero,0
        syscall
