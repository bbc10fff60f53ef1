# The nine words of the refill handler (Kane and Heinrich, chapter 6).
mfc0 $26,$4
mfc0 $27,$14
lw $26,0($26)
nop
mtc0 $26,$2
addu $26,$0,$0
tlbwr
jr $27
rfe
