# No instruction: this source is refused where it is assembled.
        frob
