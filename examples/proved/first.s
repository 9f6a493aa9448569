# first.s - makes the lock, and adds 1 to the counter again and again, each time with the lock
#! lock 4 guards counter
#! counter = rounds

        li   a0, 1
        sys  semcreate          # the first semaphore that a program makes is 4
again:  li   a0, 4
        sys  wait
        bne  a0, zero, again    # refused: the lock isn't made yet
        lw   t0, 144(zero)
        addi t0, t0, 1
        sw   t0, 144(zero)
        li   a0, 4
        sys  signal
        j    again
