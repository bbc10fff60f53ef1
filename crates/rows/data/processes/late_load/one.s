# The load ends at time 32. The instruction behind it reads its register: O where the load is late still, N where
# it is done, since the other process came between.
        lui   $t0,0x40
        addiu $a0,$zero,79      # O
        .space 116              # 29 instructions that do nothing
        lw    $a0,152($t0)
        addu  $s0,$a0,$zero
        addu  $a0,$s0,$zero
        addiu $v0,$zero,1
        syscall
        addiu $v0,$zero,0
        syscall
        .word 78                # N
