# Loads from 00410000, puts A, yields and exits. The third process has no page there.
        lui   $t0,0x41
        addiu $a0,$zero,65
        lw    $t1,0($t0)
        addiu $v0,$zero,1
        syscall
        addiu $v0,$zero,3
        syscall
        addiu $v0,$zero,0
        syscall
# Stores to the page that the first process may write, and this one may read.
        lui   $t0,0x42
        addiu $v0,$zero,3
        syscall
        sw    $t0,0($t0)
        addiu $v0,$zero,1
        syscall
