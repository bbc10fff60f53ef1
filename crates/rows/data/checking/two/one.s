# The page code is the thirteenth of this source, which is zero.
        nop
