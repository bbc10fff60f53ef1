# sieve.c by mipsel-linux-gnu-gcc (Debian 12.2.0-14) 12.2.0, $s0 times: written by compile.
again:  addu  $a0, $s1, $zero
        bgezal $zero, body
        nop
        addiu $s0, $s0, -1
        bne   $s0, $zero, again
        nop
        beq   $zero, $zero, end
        nop
body:
        .word 0x00801025
        .word 0x24831000
        .word 0xa0400000
        .word 0x24420001
        .word 0x1443fffd
        .word 0x24090004
        .word 0x24050002
        .word 0x00001025
        .word 0x24080001
        .word 0x10000004
        .word 0x240a1000
        .word 0x24a50001
        .word 0x10aa0011
        .word 0x25290002
        .word 0x00851821
        .word 0x90630000
        .word 0x00000000
        .word 0x1460fff9
        .word 0x2d261000
        .word 0x24420001
        .word 0x10c0fff6
        .word 0x01201825
        .word 0x00833821
        .word 0x00651821
        .word 0x28661000
        .word 0x14c0fffc
        .word 0xa0e80000
        .word 0x24a50001
        .word 0x14aafff1
        .word 0x25290002
        .word 0x03e00008
        .word 0x00000000
end:
