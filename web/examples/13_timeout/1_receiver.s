# receiver.s - waits for a message, at most two ticks, and then once more
        .priority 30
        .entry main
late:   .ascii "late\n"
        .align
main:   li   s0, 2              # how often
again:  li   a0, 2
        sys  recvtime
        li   t0, -3             # TIMEOUT
        beq  a0, t0, none
        mv   a1, a0             # the letter
        li   a0, 0
        sys  putc
        j    next
none:   li   a0, 0
        la   a1, late
        li   a2, 5
        sys  write
next:   addi s0, s0, -1
        bne  s0, zero, again
        li   a0, 9
        sys  sleepms
        sys  exit
