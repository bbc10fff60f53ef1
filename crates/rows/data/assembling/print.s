# Puts the words of the page at 0x00410000, each as eight hexadecimal digits and a line feed. Where it starts tells how many.
instructions:
        j     print
        addiu $s1, $zero, 696     # 174 words
labels: j     print
        addiu $s1, $zero, 136     # 34 words
refill: j     print
        addiu $s1, $zero, 36      # 9 words

print:  lui   $s0, 0x41           # the first word
        addu  $s1, $s0, $s1       # what lies behind the last
word:   lw    $s2, 0($s0)
        addiu $s3, $zero, 28      # the first digit is in the bits from 28 on
digit:  srlv  $a0, $s2, $s3
        andi  $a0, $a0, 15
        sltiu $t0, $a0, 10
        bne   $t0, $zero, put
        addiu $a0, $a0, 48        # 0 to 9
        addiu $a0, $a0, 7         # A to F
put:    addiu $v0, $zero, 1
        syscall
        addiu $s3, $s3, -4
        bgez  $s3, digit
        nop
        addiu $a0, $zero, 10
        addiu $v0, $zero, 1
        syscall
        addiu $s0, $s0, 4
        bne   $s0, $s1, word
        nop
        addiu $v0, $zero, 0
        syscall
