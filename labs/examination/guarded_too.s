# Does the same, with the word, 100 at first, at the address 108.
        .place 64
again:  addi a0, zero, 4
        sys  wait
        bne  a0, zero, again
        lw   t0, 108(zero)
        addi t0, t0, -1
        sw   t0, 108(zero)
        addi a0, zero, 4
        sys  signal
        j    again
        .word 100
