# Takes 1 off the word behind the second program, between wait and signal, for ever.
        addi a0, zero, 1
        sys  semcreate
again:  addi a0, zero, 4
        sys  wait
        bne  a0, zero, again
        lw   t0, 108(zero)
        addi t0, t0, -1
        sw   t0, 108(zero)
        addi a0, zero, 4
        sys  signal
        j    again
