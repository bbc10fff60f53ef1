# Loads from address 00000000.
lw $8,0($9)
