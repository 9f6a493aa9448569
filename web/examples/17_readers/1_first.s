# first.s - reads lines, and writes each back behind a 1
        .entry main
line:   .zero 32
main:   li   a0, 0              # the console
        la   a1, line
        li   a2, 32
        sys  read
        mv   s0, a0             # its length
        li   a0, 0
        li   a1, 49             # 1
        sys  putc
        li   a0, 0
        la   a1, line
        mv   a2, s0
        sys  write
        j    main
