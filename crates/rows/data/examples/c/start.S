# Where a process begins: all its registers are zero, and so is the data that C wants to be zero, since it lies in pages of
# zeros. It sets the stack, and calls main, and exit with what main returned.

        .section .text.start, "ax"
        .set    reorder
        .globl  _start
_start:
        li      $sp, 0x7FFFFFF0         # the stack ends at 80000000; 16 bytes are main's, for its arguments
        jal     main
        move    $4, $2
        jal     exit
