# A branch and its slot, a unit of two ticks, again and again.
loop: beq $0,$0,loop
