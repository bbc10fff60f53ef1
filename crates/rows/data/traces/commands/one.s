# Does nothing; an operator stops it.
        nop
        nop
