# twice.s - adds 1 to the counter again and again, and rests a tick if that made it 0

again:  li   a0, 4
        sys  wait
        bne  a0, zero, again    # refused: the lock isn't made yet
        lw   t0, 1100(zero)
        addi t0, t0, 1
        sw   t0, 1100(zero)
        bne  t0, zero, give
        li   a0, 4
        sys  signal
        li   a0, 1
        sys  sleepms
give:   li   a0, 4
        sys  signal
        j    again
