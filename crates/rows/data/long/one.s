# Puts the byte 41 and exits.
.word 0x24040041
.word 0x24020001
.word 0x0000000C
.word 0x24020000
.word 0x0000000C
