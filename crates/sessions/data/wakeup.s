# A process suspends itself unless a flag is set; another one sets the flag and resumes it.
.place 0
.priority 30
        la   a0, sleeps
        li   a1, 400
        li   a2, 20
        la   a3, first
        li   a4, 0
        li   a5, 0
        sys  create
        la   t0, who
        sw   a0, 0(t0)
        sys  resume
        la   a0, wakes
        li   a1, 400
        li   a2, 20
        la   a3, second
        li   a4, 0
        li   a5, 0
        sys  create
        sys  resume
        sys  exit
sleeps: la   t0, ready
        lw   t1, 0(t0)
        bne  t1, zero, awake
        sys  getpid
        sys  suspend
awake:
        li   a0, 0
        li   a1, 97             # a
        sys  putc
        li   a0, 20             # the console has to send it
        sys  sleepms
        sys  exit
wakes:  la   t0, ready
        li   t1, 1
        sw   t1, 0(t0)
        la   t0, who
        lw   a0, 0(t0)
        sys  resume
        sys  exit
ready:  .word 0
who:    .word 0
first:  .ascii "sleeps\0"
        .zero 1
second: .ascii "wakes\0"
        .zero 2
