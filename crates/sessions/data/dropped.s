# A process sends 1, 2 and 3; another one adds three messages. A message box holds one.
.place 0
.priority 30
        la   a0, taker
        li   a1, 400
        li   a2, 20
        la   a3, first
        li   a4, 0
        li   a5, 0
        sys  create
        la   t0, who
        sw   a0, 0(t0)
        sys  resume
        la   a0, giver
        li   a1, 400
        li   a2, 20
        la   a3, second
        li   a4, 0
        li   a5, 0
        sys  create
        sys  resume
        sys  exit
taker:  li   s0, 0
        li   s1, 3
next:   sys  receive
        add  s0, s0, a0
        addi s1, s1, -1
        bne  s1, zero, next
        addi a1, s0, 48
        li   a0, 0
        sys  putc
        li   a0, 20             # the console has to send it
        sys  sleepms
        sys  exit
giver:  la   s0, who
        lw   s0, 0(s0)
        li   s1, 1
        li   s2, 4
more:   mv   a0, s0
        mv   a1, s1
        sys  send
        sys  yield
        addi s1, s1, 1
        bne  s1, s2, more
        sys  exit
who:    .word 0
first:  .ascii "taker\0"
        .zero 2
second: .ascii "giver\0"
        .zero 2
