        addiu $8,$0,1
        break 1
