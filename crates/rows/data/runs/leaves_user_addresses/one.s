# A page of zeros, which runs up to 80000000.
