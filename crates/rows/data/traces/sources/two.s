        # the other source
begin:  addiu $4,$0,66
        addiu $2,$0,1
        syscall
        lui   $9,0x0043
        ori   $9,$9,0x0FF4
end:    jr    $9               # into a copy, which is no page of a source
