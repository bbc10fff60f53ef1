# From the general vector on 32 words are 0; those before and after them are not.
        lui   $8, 0x8000
        addiu $10, $zero, 0x004D  # break 1
        sw    $10, 0x7C($8)
        sw    $10, 0x100($8)
        syscall 3
