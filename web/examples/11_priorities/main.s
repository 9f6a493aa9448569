# main.s - makes a process of lower and one of higher priority, and then goes below both

        .entry main
names:  .ascii "low\0"
        .zero 12
        .ascii "high\0"
        .zero 11
        .align

main:   la   a0, puts
        li   a1, 400
        li   a2, 10
        la   a3, names
        li   a4, 108            # l
        sys  create
        sys  resume
        la   a0, puts
        li   a1, 400
        li   a2, 30
        la   a3, names
        addi a3, a3, 16
        li   a4, 104            # h
        sys  create
        sys  resume
        li   a0, 0
        li   a1, 109            # m
        sys  putc
        sys  getpid
        li   a1, 5
        sys  chprio             # whom does this let run?
        li   a0, 0
        li   a1, 77             # M
        sys  putc
        li   a0, 2
        sys  sleepms
        sys  exit

puts:   mv   a1, a0             # a process that puts the letter it was made with
        li   a0, 0
        sys  putc
        ret
