# Sorts the letters of a text in memory and puts them on the console.
#
# Each letter of the text is taken from the page of code and put into its place among those that lie in the
# page of data already, from 00410001 on. The byte at 00410000 is never written: a page of data begins as
# zeros, and a 0 before the first letter is less than any letter, so the search for a place ends there.
#
#   $s0  the next letter of the text          $t0  the letter that was taken
#   $s1  after the last letter in its place   $t1  the place that $t0 may come to
#                                             $t2  the letter before that place

        lui   $s0, 0x0040
        ori   $s0, $s0, 0x0074       # the text lies 29 words on
        lui   $s1, 0x0041
        addiu $s1, $s1, 1

take:   lbu   $t0, 0($s0)
        addiu $s0, $s0, 1
        beq   $t0, $zero, write      # a byte 0 ends the text
        addu  $t1, $s1, $zero        # in the slot: the search begins at the end

look:   lbu   $t2, -1($t1)
        nop                          # the byte comes late
        sltu  $t3, $t0, $t2
        beq   $t3, $zero, place      # the letter before is not greater
        nop
        sb    $t2, 0($t1)            # it is, and moves up
        j     look
        addiu $t1, $t1, -1           # in the slot: one place down

place:  sb    $t0, 0($t1)
        j     take
        addiu $s1, $s1, 1            # in the slot: one letter more

write:  lui   $s2, 0x0041
        addiu $s2, $s2, 1
put:    lbu   $a0, 0($s2)
        addiu $s2, $s2, 1
        addiu $v0, $zero, 1
        syscall
        bne   $s2, $s1, put          # until the last letter is put
        nop
        addiu $v0, $zero, 0
        syscall

text:   .byte 119                    # w
        .byte 111                    # o
        .byte 114                    # r
        .byte 107                    # k
        .byte 115                    # s
        .byte 116                    # t
        .byte 97                     # a
        .byte 116                    # t
        .byte 105                    # i
        .byte 111                    # o
        .byte 110                    # n
        .byte 0
