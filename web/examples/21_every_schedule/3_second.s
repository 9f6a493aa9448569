# second.s - does the same behind the first program

        .place 512
again:  li   a0, 4
        sys  wait
        bne  a0, zero, again    # refused: the lock isn't made yet
        lw   t0, 1100(zero)
        addi t0, t0, 1
        sw   t0, 1100(zero)
        li   a0, 4
        sys  signal
        j    again
