# The page ends with a branch: its slot is fetched from the next page.
.space 4092
loop: beq $0,$0,loop
