# Gives the lock back before it stores.
        .place 64
again:  addi a0, zero, 4
        sys  wait
        bne  a0, zero, again
        lw   t0, 108(zero)
        addi a0, zero, 4
        sys  signal
        addi t0, t0, -1
        sw   t0, 108(zero)
        j    again
        .word 100
