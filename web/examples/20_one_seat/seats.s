# seats.s - two buyers of the last seat; the first process prints how many were sold

        .priority 30
        .entry main
seats:  .word 1
sold:   .word 0
name:   .ascii "buyer\0"
        .zero 10
        .align

main:   li   s0, 2              # how many buyers
make:   la   a0, buyer
        li   a1, 400
        li   a2, 20
        la   a3, name
        sys  create
        sys  resume
        addi s0, s0, -1
        bne  s0, zero, make
        li   a0, 10             # both are done by then
        sys  sleepms
        la   t0, sold
        lw   a1, 0(t0)
        addi a1, a1, 48         # as a digit
        li   a0, 0
        sys  putc
        li   a0, 20
        sys  sleepms
        ret

buyer:  la   t0, seats
        lw   t1, 0(t0)
        beq  t1, zero, none     # is there one?
        addi t1, t1, -1
        sw   t1, 0(t0)
        la   t0, sold
        lw   t1, 0(t0)
        addi t1, t1, 1
        sw   t1, 0(t0)
none:   ret
