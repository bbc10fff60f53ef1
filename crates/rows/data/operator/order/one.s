# Processes 1 to 3 load from 00000000, put their number and exit. Process 4 waits, puts W and exits. Process 5 puts a full
# stop and yields, for ever.
        lw    $t0,0($zero)
        addiu $v0,$zero,5
        syscall
        addiu $a0,$v0,48
        j     put
        addiu $v0,$zero,9       # process 4, from 00400014, and the slot
        syscall
        addiu $a0,$zero,87
put:    addiu $v0,$zero,1
        syscall
        addiu $v0,$zero,0
        syscall
        nop
        nop
run:    addiu $a0,$zero,46      # process 5, from 00400038
        addiu $v0,$zero,1
        syscall
        addiu $v0,$zero,3
        syscall
        beq   $zero,$zero,run
        nop
