# Shares nothing with anybody: it stores a letter in a page of its own, yields, puts the letter that it finds there, and then
# one made of its own number. Whoever runs while it has yielded, it finds what it stored.

start:  lui   $t0, 0x0041            # its page
        addiu $t1, $zero, 65
        sw    $t1, 0($t0)            # A
        addiu $v0, $zero, 3          # 3 is the call `yield`
        syscall
        lw    $a0, 0($t0)
        addiu $v0, $zero, 1          # 1 is the call `put`
        syscall
        addiu $v0, $zero, 5          # 5 is the call `self`: the number of the process
        syscall
        addiu $a0, $v0, 65           # B for process 1
        addiu $v0, $zero, 1
        syscall
        addiu $v0, $zero, 0          # 0 is the call `exit`
        syscall
