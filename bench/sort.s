# sort.c by mipsel-linux-gnu-gcc (Debian 12.2.0-14) 12.2.0, $s0 times: written by compile.
again:  addu  $a0, $s1, $zero
        bgezal $zero, body
        nop
        addiu $s0, $s0, -1
        bne   $s0, $zero, again
        nop
        beq   $zero, $zero, end
        nop
body:
        .word 0x00803825
        .word 0x24850100
        .word 0x00801825
        .word 0x24020001
        .word 0x00022080
        .word 0x00821021
        .word 0x24423039
        .word 0x000220c2
        .word 0xac640000
        .word 0x24630004
        .word 0x1465fff9
        .word 0x24e80004
        .word 0x24090001
        .word 0x240a0040
        .word 0x8d060000
        .word 0x10000005
        .word 0x01001025
        .word 0xac430000
        .word 0x2482fffc
        .word 0x10e2000d
        .word 0x00000000
        .word 0x8c43fffc
        .word 0x00000000
        .word 0x00c3282b
        .word 0x14a0fff8
        .word 0x00402025
        .word 0x25290001
        .word 0xac860000
        .word 0x152afff1
        .word 0x25080004
        .word 0x8ce20000
        .word 0x03e00008
        .word 0x00000000
        .word 0x00e02025
        .word 0x25290001
        .word 0xac860000
        .word 0x152affe9
        .word 0x25080004
        .word 0x1000fff7
        .word 0x00000000
end:
