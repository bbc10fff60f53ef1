# Step 5: a small kernel. Two processes, which the clock switches, each with a serial line, on which it puts, and gets what comes in.
# A process has a record with all that is its own, from 80410100 or 80410200 on: register n at 4 n, HI at 80, LO at 84, EPC at 88, its
# page table at 8C, EntryHi at 90, at 94 0 ready, 1 waiting or 2 ended, its line's enable at 98, and a queue of the characters for it:
# at 9C how many it has got, at A0 how many have come in, and from A4 on eight places.
        j     setup
        nop
        mfc0  $k0, $4             # these nine words go to 80000000
        mfc0  $k1, $14
        lw    $k0, 0($k0)
        nop
        mtc0  $k0, $2
        nop
        tlbwr
        jr    $k1
        rfe
        j     general             # this word goes to 80000080
        .word user
setup:  lui   $t0, 0x8000
        lui   $t1, 0x8040
        addiu $t2, $t1, 36
copy:   lw    $t3, 8($t1)
        addiu $t1, $t1, 4
        sw    $t3, 0($t0)
        bne   $t1, $t2, copy
        addiu $t0, $t0, 4
        lw    $t3, 8($t1)
        lui   $t0, 0x8000
        sw    $t3, 0x80($t0)
        lw    $a3, 12($t1)        # where both processes begin
        lui   $s1, 0xBFE0         # the serial lines
        addiu $t0, $zero, 0x60
        sw    $t0, 0($s1)         # scanned, and a character asks for an interrupt
        lui   $t0, 0x0080
        lui   $t1, 0xBFF0
        sw    $t0, 0($t1)         # the system register lets that through
        lui   $t1, 0xBFE8         # the clock
        addiu $t0, $zero, 7
        sw    $t0, 0x28($t1)      # a period of 512 ticks
        addiu $t0, $zero, 0x40
        sw    $t0, 0x2C($t1)      # which asks for an interrupt
        lui   $s2, 0x8041         # 80410000 has the address of the record of the process that runs
        addiu $a0, $s2, 0x0200
        lui   $a1, 0x8020         # process 2: a page table at 80200000
        lui   $a2, 0x0050
        ori   $a2, $a2, 0x1201    # frame 00501000, V, may be written
        addiu $v1, $zero, 2       # line 1
        jal   make
        addiu $v0, $zero, 0x80    # address space 2
        addiu $a0, $s2, 0x0100
        lui   $a1, 0x8060         # process 1: a page table at 80600000
        lui   $a2, 0x0050
        ori   $a2, $a2, 0x0201    # frame 00500000
        addiu $v1, $zero, 1       # line 0
        jal   make
        addiu $v0, $zero, 0x40    # address space 1
        addiu $t0, $zero, 0x0C0C
        mtc0  $t0, $12            # Status: KUp, IEp, and the masks of the lines and the clock, IM bits 2 and 3
        j     run
        addu  $s2, $a0, $zero
make:   lui   $t0, 0x0040         # a process: its record, its page table, its address space, and the frame of its data
        ori   $t0, $t0, 0x0200
        sw    $t0, 0x1000($a1)    # page 00400000 is the image, which may be read
        sw    $a2, 0x1040($a1)    # page 00410000 is a frame of its own
        sw    $a1, 0x8C($a0)
        sw    $v0, 0x90($a0)
        sw    $a3, 0x88($a0)
        sw    $v1, 0x98($a0)
        jr    $ra
        nop
general:
        lui   $k0, 0x8041
        lw    $k0, 0($k0)         # the record of the process that ran: all its registers are kept there
        nop
        sw    $at, 4($k0)
        sw    $v0, 8($k0)
        sw    $v1, 12($k0)
        sw    $a0, 16($k0)
        sw    $a1, 20($k0)
        sw    $a2, 24($k0)
        sw    $a3, 28($k0)
        sw    $t0, 32($k0)
        sw    $t1, 36($k0)
        sw    $t2, 40($k0)
        sw    $t3, 44($k0)
        sw    $t4, 48($k0)
        sw    $t5, 52($k0)
        sw    $t6, 56($k0)
        sw    $t7, 60($k0)
        sw    $s0, 64($k0)
        sw    $s1, 68($k0)
        sw    $s2, 72($k0)
        sw    $s3, 76($k0)
        sw    $s4, 80($k0)
        sw    $s5, 84($k0)
        sw    $s6, 88($k0)
        sw    $s7, 92($k0)
        sw    $t8, 96($k0)
        sw    $t9, 100($k0)
        sw    $gp, 112($k0)
        sw    $sp, 116($k0)
        sw    $fp, 120($k0)
        sw    $ra, 124($k0)
        mfhi  $t0
        mflo  $t1
        mfc0  $t2, $14
        sw    $t0, 0x80($k0)
        sw    $t1, 0x84($k0)
        sw    $t2, 0x88($k0)      # EPC
        addu  $s0, $k0, $zero
        lui   $s1, 0xBFE0
        mfc0  $t0, $13
        addiu $t2, $zero, 4
        andi  $t1, $t0, 0x7C
        beq   $t1, $zero, interrupt
        nop
        beq   $t1, $t2, modified
        addiu $t2, $zero, 32
        beq   $t1, $t2, call
        nop
refused:
        addiu $t0, $zero, 33      # !
        lw    $t1, 0x98($s0)
        nop
        sw    $t1, 0x10($s1)
        sw    $t0, 0x18($s1)
exit:   addiu $t0, $zero, 2       # ended
        sw    $t0, 0x94($s0)
pick:   xori  $s2, $s0, 0x300     # the other process, if it is ready
        lw    $t1, 0x94($s2)
        lw    $t2, 0x94($s0)
        beq   $t1, $zero, run
        nop
        addu  $s2, $s0, $zero     # else the same again
        beq   $t2, $zero, run
        nop
        and   $t1, $t1, $t2       # 2 only where both have ended
        addiu $t1, $t1, -2
        beq   $t1, $zero, stop
        nop
        jal   receive             # nobody is ready: the kernel asks the lines itself
        nop
        j     pick
        nop
stop:   break 1
interrupt:
        andi  $t1, $t0, 0x0400    # IP2: the lines
        beq   $t1, $zero, tick
        nop
        jal   receive
        nop
        j     run
        addu  $s2, $s0, $zero
tick:   lui   $t1, 0xBFE8
        lw    $t1, 0x30($t1)      # the clock's flags, which are cleared
        j     pick
        nop
receive:
        lw    $t2, 8($s1)         # the oldest character with bit 15, its line in bits 9 and 8; 0 where there is none
        lui   $t3, 0x8041
        beq   $t2, $zero, back
        andi  $t4, $t2, 0x0100
        addu  $t3, $t3, $t4
        addiu $t3, $t3, 0x0100    # the record of the process of that line
        lw    $t4, 0xA0($t3)
        lw    $t5, 0x9C($t3)
        lw    $t6, 0x94($t3)
        subu  $t5, $t4, $t5
        sltiu $t5, $t5, 8
        beq   $t5, $zero, receive # its queue is full: the character is lost
        andi  $t5, $t4, 7
        addu  $t5, $t5, $t3
        sb    $t2, 0xA4($t5)
        addiu $t4, $t4, 1
        sw    $t4, 0xA0($t3)
        addiu $t6, $t6, -1
        bne   $t6, $zero, receive
        nop
        sw    $zero, 0x94($t3)    # it waited, and is ready
        j     receive
        nop
back:   jr    $ra
        nop
call:   lw    $t0, 0x88($s0)
        beq   $v0, $zero, exit    # call 0
        addiu $t0, $t0, 4
        addiu $t1, $zero, 2
        beq   $v0, $t1, get
        lw    $t2, 0x98($s0)
        sw    $t0, 0x88($s0)      # call 1: put
        sw    $t2, 0x10($s1)      # its line sends
        sw    $a0, 0x18($s1)
        j     run
        addu  $s2, $s0, $zero
get:    lw    $t1, 0x9C($s0)      # call 2
        lw    $t2, 0xA0($s0)
        andi  $t3, $t1, 7
        beq   $t1, $t2, wait
        addu  $t3, $t3, $s0
        lbu   $t3, 0xA4($t3)
        addiu $t1, $t1, 1
        sw    $t1, 0x9C($s0)
        sw    $t3, 8($s0)         # register 2
        sw    $t0, 0x88($s0)
        j     run
        addu  $s2, $s0, $zero
wait:   addiu $t1, $zero, 1       # the call is done again when it is ready
        sw    $t1, 0x94($s0)
        j     pick
        nop
modified:
        mfc0  $t1, $4             # the address of the page's entry
        nop
        lw    $t2, 0($t1)
        nop
        andi  $t3, $t2, 1         # may it be written?
        beq   $t3, $zero, refused
        ori   $t2, $t2, 0x0400    # D
        sw    $t2, 0($t1)
        mtc0  $t2, $2
        tlbp
        nop
        tlbwi
        addu  $s2, $s0, $zero
run:    lui   $t0, 0x8041
        sw    $s2, 0($t0)         # it runs now
        lw    $t0, 0x8C($s2)
        lw    $t1, 0x90($s2)
        mtc0  $t0, $4             # Context: its page table
        mtc0  $t1, $10            # EntryHi: its address space
        addu  $k0, $s2, $zero
        lw    $t0, 0x80($k0)
        lw    $t1, 0x84($k0)
        mthi  $t0
        mtlo  $t1
        lw    $at, 4($k0)
        lw    $v0, 8($k0)
        lw    $v1, 12($k0)
        lw    $a0, 16($k0)
        lw    $a1, 20($k0)
        lw    $a2, 24($k0)
        lw    $a3, 28($k0)
        lw    $t0, 32($k0)
        lw    $t1, 36($k0)
        lw    $t2, 40($k0)
        lw    $t3, 44($k0)
        lw    $t4, 48($k0)
        lw    $t5, 52($k0)
        lw    $t6, 56($k0)
        lw    $t7, 60($k0)
        lw    $s0, 64($k0)
        lw    $s1, 68($k0)
        lw    $s2, 72($k0)
        lw    $s3, 76($k0)
        lw    $s4, 80($k0)
        lw    $s5, 84($k0)
        lw    $s6, 88($k0)
        lw    $s7, 92($k0)
        lw    $t8, 96($k0)
        lw    $t9, 100($k0)
        lw    $gp, 112($k0)
        lw    $sp, 116($k0)
        lw    $fp, 120($k0)
        lw    $ra, 124($k0)
        lw    $k1, 0x88($k0)
        nop
        jr    $k1
        rfe
user:   lui   $s0, 0x0041         # puts what it gets, up to a full stop, and how many that were
next:   addiu $v0, $zero, 2
        syscall
        lw    $t0, 0($s0)
        addu  $a0, $v0, $zero
        addiu $t0, $t0, 1
        sw    $t0, 0($s0)
        addiu $t1, $zero, 46      # .
        beq   $a0, $t1, done
        addiu $v0, $zero, 1
        syscall
        j     next
        nop
done:   addiu $a0, $t0, 47        # as a digit, without the full stop
        syscall
        addu  $v0, $zero, $zero
        syscall
