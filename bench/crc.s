# crc.c by mipsel-linux-gnu-gcc (Debian 12.2.0-14) 12.2.0, $s0 times: written by compile.
again:  addu  $a0, $s1, $zero
        bgezal $zero, body
        nop
        addiu $s0, $s0, -1
        bne   $s0, $zero, again
        nop
        beq   $zero, $zero, end
        nop
body:
        .word 0x3c06edb8
        .word 0x00802825
        .word 0x24870400
        .word 0x2402ffff
        .word 0x34c68320
        .word 0x90a40000
        .word 0x24030008
        .word 0x00441026
        .word 0x30440001
        .word 0x2463ffff
        .word 0x10800002
        .word 0x00021042
        .word 0x00461026
        .word 0x1460fffb
        .word 0x30440001
        .word 0x24a50001
        .word 0x14e5fff4
        .word 0x00000000
        .word 0x03e00008
        .word 0x00000000
end:
