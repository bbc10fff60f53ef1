# Loads from each page from 00401000 on: the last one of its process is 004FF000.
        lui   $t0,0x40
loop:   addiu $t0,$t0,4096
        lbu   $t1,0($t0)
        j     loop
        nop
