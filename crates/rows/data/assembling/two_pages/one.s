# The image ends with its second page's first byte.
.space 4094
.byte 1
.byte 2
.byte -3
