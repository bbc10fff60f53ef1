# Puts a line on the console and exits.
#
# The image begins at 00400000. The text lies in it after the code, eleven words on, at 0040002C, so the
# right to read the page of code is all that it takes.

        lui   $s0, 0x0040            # $s0 = 00400000
        ori   $s0, $s0, 0x002C       # $s0 = 0040002C, where the text lies
next:   lbu   $a0, 0($s0)            # the byte comes late: not yet in the next instruction
        addiu $s0, $s0, 1
        beq   $a0, $zero, exit       # a byte 0 ends the text
        addiu $v0, $zero, 1          # the slot of the branch: it is done in any case. 1 is the call `put`
        syscall                      # put the byte in $a0 on the console
        j     next
        nop                          # a slot with nothing to do
exit:   addiu $v0, $zero, 0          # 0 is the call `exit`
        syscall

text:   .byte 72                     # H
        .byte 101                    # e
        .byte 108                    # l
        .byte 108                    # l
        .byte 111                    # o
        .byte 10                     # the end of the line
        .byte 0
