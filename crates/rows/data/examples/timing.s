# Adds 3 ten times, twice. The two loops differ in what stands in the slot of their branch.
#
# Time is counted in ticks: one for an instruction, two for a branch with its slot, one for a call.
# Filling the translation buffer takes none.

        addiu $t0, $zero, 10         # 1 tick
first:  addiu $t1, $t1, 3            # 1 for each turn
        addiu $t0, $t0, -1           # 1
        bne   $t0, $zero, first      # 2, with the slot
        nop
                                     # so far 1 + 10 * 4 = 41
        addiu $t0, $zero, 10         # 1
second: addiu $t0, $t0, -1           # 1 for each turn
        bne   $t0, $zero, second     # 2, with the slot
        addiu $t1, $t1, 3            # the slot has work to do: each turn is a tick shorter
                                     # so far 41 + 1 + 10 * 3 = 72
        addiu $v0, $zero, 0          # 1
        syscall                      # 1: 74
