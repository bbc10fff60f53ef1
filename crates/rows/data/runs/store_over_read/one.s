# Stores to a page that it may only read.
lui $8,0x41
sw $8,0($8)
