# A page of zeros is a program of 1,024 words that do nothing.
