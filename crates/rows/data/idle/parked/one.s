# Is denied its load, whenever it is resumed.
        lw $8,0($9)
