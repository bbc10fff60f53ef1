# Stores to address 12340004.
lui $8,0x1234
sw $0,4($8)
