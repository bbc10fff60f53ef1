# Eight processes: each shares its page with itself 254 times, each time what it was given last, and then with the next process. Then the
# first takes back its first share, and puts the answer; each other looks at what it was given last, and is denied.
        addiu $2,$0,5
        syscall
        addu  $16,$2,$0
        lui   $17,0x80
        addiu $18,$0,254
next:   addu  $4,$17,$0
        addu  $5,$16,$0
        addiu $6,$17,4096
        addiu $7,$0,2
        addiu $2,$0,6
        syscall
        addiu $17,$17,4096
        addiu $18,$18,-1
        bne   $18,$0,next
        nop
        addiu $9,$0,8
        beq   $16,$9,last
        nop
        addu  $4,$17,$0
        addiu $5,$16,1
        lui   $6,0x80
        addiu $7,$0,2
        addiu $2,$0,6
        syscall
last:   addiu $4,$2,48
        addiu $2,$0,1
        syscall                 # puts what the last give was answered
        addiu $2,$0,3
        syscall                 # yields
        addiu $9,$0,1
        bne   $16,$9,look
        nop
        lui   $5,0x80
        addiu $5,$5,4096
        addiu $4,$0,1
        addiu $2,$0,7
        syscall                 # takes its own second entry, from which all but the first come
        addiu $4,$2,48
        addiu $2,$0,1
        syscall
        lui   $17,0x80
look:   lbu   $9,0($17)
        addiu $2,$0,0
        syscall
