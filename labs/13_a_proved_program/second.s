# second.s - does the same behind the first program

        .place 512
again:  lw   t0, 1100(zero)
        addi t0, t0, 1
        sw   t0, 1100(zero)
        j    again
