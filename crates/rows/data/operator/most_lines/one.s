# Does nothing, until its code is revoked by the last of 4,095 commands.
        nop
