# worker.s - sleeps a tick, so that the other one can begin, and then works on for some ticks
        .entry main
main:   li   a0, 1
        sys  sleepms
        li   s0, 25
work:   addi s0, s0, -1
        bne  s0, zero, work
        li   a0, 3              # now it rests
        sys  sleepms
        sys  exit
