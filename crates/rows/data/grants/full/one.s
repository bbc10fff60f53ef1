# Gives itself pages until a refusal: 17 is put as A, 16 as @, 11 as ;, 18 as B. One entry is dropped on the way.
        lui   $a0,0x40
        addiu $a1,$zero,1
        lui   $a2,0x44
        addiu $a3,$zero,1
        addiu $v0,$zero,6
        syscall
        addiu $a0,$v0,48
        addiu $v0,$zero,1
        syscall
        lui   $a0,0x40
        addiu $a1,$zero,1
        addiu $a2,$zero,0
        addiu $a3,$zero,1
        addiu $v0,$zero,6
        syscall
        addiu $a0,$v0,48
        addiu $v0,$zero,1
        syscall
        lui   $a0,0x40
        addiu $a1,$zero,1
        lui   $a2,0x44
        addiu $a3,$zero,3
        addiu $v0,$zero,6
        syscall
        addiu $a0,$v0,48
        addiu $v0,$zero,1
        syscall
        lui   $a0,0x40
        addiu $a1,$zero,1
        lui   $a2,0x103
        ori   $a2,$a2,0xF000
        addiu $a3,$zero,1
        addiu $v0,$zero,6
        syscall
        addiu $a0,$v0,48
        addiu $v0,$zero,1
        syscall
        lui   $a0,0x103
        ori   $a0,$a0,0xE000
        addiu $v0,$zero,8
        syscall
        addiu $a0,$v0,48
        addiu $v0,$zero,1
        syscall
        lui   $a0,0x40
        addiu $a1,$zero,1
        addiu $a2,$zero,0
        addiu $a3,$zero,3
        addiu $v0,$zero,6
        syscall
        addiu $a0,$v0,48
        addiu $v0,$zero,1
        syscall
        lui   $a0,0x40
        addiu $a1,$zero,1
        lui   $a2,0x44
        addiu $a3,$zero,3
        addiu $v0,$zero,6
        syscall
        addiu $a0,$v0,48
        addiu $v0,$zero,1
        syscall
        lui   $a0,0x40
        addiu $a1,$zero,1
        lui   $a2,0x44
        addiu $a3,$zero,1
        addiu $v0,$zero,6
        syscall
        addiu $a0,$v0,48
        addiu $v0,$zero,1
        syscall
        lui   $a0,0x40
        addiu $a1,$zero,1
        lui   $a2,0x44
        ori   $a2,$a2,0x1000
        addiu $a3,$zero,1
        addiu $v0,$zero,6
        syscall
        addiu $a0,$v0,48
        addiu $v0,$zero,1
        syscall
        addiu $v0,$zero,0
        syscall
