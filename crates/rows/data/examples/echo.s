# Puts each character that comes, small letters as capitals, and exits after a full stop.
#
# `get` takes the oldest character of the line's queue, and answers FFFFFFFF at once where there is none. `wait`
# sleeps until there is one. So a process that has nothing to do asks by `wait`, and then takes all by `get`.

sleep:  addiu $v0, $zero, 9          # 9 is the call `wait`
        syscall
next:   addiu $v0, $zero, 2          # 2 is the call `get`
        syscall
        bltz  $v0, sleep             # FFFFFFFF is -1: nothing is left
        addu  $a0, $v0, $zero        # in the slot: what came

        addiu $t0, $a0, -97          # a becomes 0, z becomes 25, and what is below a is very large
        sltiu $t0, $t0, 26           # 1 for a small letter
        sll   $t0, $t0, 5            # 32, by which capitals are less
        subu  $a0, $a0, $t0
        addiu $v0, $zero, 1          # 1 is the call `put`
        syscall

        addiu $t0, $a0, -46          # 0 for a full stop
        bne   $t0, $zero, next
        addiu $v0, $zero, 0          # in the slot: 0 is the call `exit`
        syscall
