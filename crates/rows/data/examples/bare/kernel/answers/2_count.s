# An answer to exercise 2: the refill handler counts, in the word at 80410000, and the end of the process puts how many there were.
        j     setup
        nop
        lui   $k0, 0x8041         # these 14 words go to 80000000: the count is first, while no register is in use
        lw    $k1, 0($k0)
        nop
        addiu $k1, $k1, 1
        sw    $k1, 0($k0)
        mfc0  $k0, $4             # Context is the address of the page's entry
        mfc0  $k1, $14            # EPC
        lw    $k0, 0($k0)
        nop
        mtc0  $k0, $2             # EntryLo
        nop
        tlbwr
        jr    $k1
        rfe
        j     general             # this word goes to 80000080
        .word user                # where the process begins
setup:  lui   $t0, 0x8000
        lui   $t1, 0x8040
        addiu $t2, $t1, 56        # 14 words
copy:   lw    $t3, 8($t1)
        addiu $t1, $t1, 4
        sw    $t3, 0($t0)
        bne   $t1, $t2, copy
        addiu $t0, $t0, 4
        lw    $t3, 8($t1)         # the 15th
        lui   $t0, 0x8000
        sw    $t3, 0x80($t0)
        lui   $t4, 0xBFE0         # the serial lines, in kseg1
        addiu $t5, $zero, 0x20
        sw    $t5, 0($t4)         # they are scanned
        addiu $t5, $zero, 1
        sw    $t5, 0x10($t4)      # line 0 sends
        lui   $t0, 0x8060         # the page table: a word for each page of the user's half
        mtc0  $t0, $4             # Context: PTEBase
        lui   $t5, 0x0040
        ori   $t5, $t5, 0x0200    # frame 00400000, V
        sw    $t5, 0x1000($t0)    # is page 00400000
        addiu $t5, $zero, 0x40
        mtc0  $t5, $10            # EntryHi: address space 1
        addiu $t5, $zero, 8
        mtc0  $t5, $12            # Status: KUp, so that rfe leads into user mode
        lw    $k1, 12($t1)        # the word after the 15th
        nop
        jr    $k1
        rfe
general:
        mfc0  $k0, $13            # Cause
        mfc0  $k1, $14            # EPC
        andi  $k0, $k0, 0x7C
        addiu $k0, $k0, -32
        bne   $k0, $zero, stop    # no system call
        addiu $k1, $k1, 4
        beq   $v0, $zero, exit    # call 0
        lui   $k0, 0xBFE0
        sw    $a0, 0x18($k0)      # call 1: the character is sent
        jr    $k1
        rfe
exit:   lui   $k1, 0x8041
        lw    $k1, 0($k1)
        nop
        addiu $k1, $k1, 48        # as a digit
        sw    $k1, 0x18($k0)
stop:   break 1
user:   addiu $v0, $zero, 1       # its fetch misses
        addiu $a0, $zero, 72      # H
        syscall
        addiu $a0, $zero, 105     # i
        syscall
        addu  $v0, $zero, $zero
        syscall
