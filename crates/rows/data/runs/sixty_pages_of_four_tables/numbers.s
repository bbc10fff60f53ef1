# A number at the beginning of each of four pages: 30 times their sum is 330, of which 74 is put, a J.
        .word 1
        .space 4092
        .word 2
        .space 4092
        .word 3
        .space 4092
        .word 5
