# A character comes in and asks for an interrupt, and interrupts are off.
        lui   $8, 0xBFE0          # 1FE00000 in kseg1
        addiu $9, $zero, 0x60
        sw    $9, 0($8)           # the lines are scanned, and a character asks
        lui   $9, 0x0080
        lui   $10, 0xBFF0         # 1FF00000 in kseg1
        sw    $9, 0($10)          # what the lines ask for reaches the processor
        mfc0  $11, $13            # Cause: IP2, since the character came before this instruction
        lw    $12, 8($8)          # the character, which is taken
        break 1
