# rash.s - adds 1 to the counter again and again, without the lock; the counter lies behind both programs

        .place 80
again:  lw   t0, 144(zero)
        addi t0, t0, 1
        sw   t0, 144(zero)
        j    again
        .zero 48
counter: .word 0
