# second.s - adds 1 to the counter again and again, each time with the lock; the counter lies behind both programs

        .place 80
again:  li   a0, 4
        sys  wait
        bne  a0, zero, again
        lw   t0, 144(zero)
        addi t0, t0, 1
        sw   t0, 144(zero)
        li   a0, 4
        sys  signal
        j    again
        .zero 12
counter: .word 0
