# reader.s - reads a line of the console, and shows it again

        .place 4096
        .priority 10
        .entry main
line:   .zero 32

main:   li   a0, 3
        sys  sleepms
        li   a0, 0
        la   a1, line
        li   a2, 32
        sys  read
        mv   a2, a0
        li   a0, 0
        la   a1, line
        sys  write
        ret
