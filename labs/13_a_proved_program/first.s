# first.s - adds 1 to the counter again and again

again:  lw   t0, 1100(zero)
        addi t0, t0, 1
        sw   t0, 1100(zero)
        j    again
