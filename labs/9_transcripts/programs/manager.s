# manager.s - two workers share a semaphore; one sends messages, the other is killed as it waits

        .priority 30
        .entry main
name:   .ascii "worker\0"
        .zero 9

main:   sys  getpid
        mv   s2, a0
        li   a0, 0
        sys  semcreate
        mv   s0, a0
        la   a0, waits          # process 4
        li   a1, 400
        li   a2, 20
        la   a3, name
        mv   a4, s0
        mv   a5, s2
        sys  create
        mv   s1, a0
        sys  resume
        la   a0, sends          # process 5
        li   a1, 400
        li   a2, 20
        la   a3, name
        mv   a4, s0
        mv   a5, s2
        sys  create
        sys  resume
        li   a0, 5
        sys  recvtime           # the first message, within five ticks
        mv   a0, s1
        sys  kill
        mv   a0, s0
        sys  signal
        sys  receive            # the number of the one that died
        sys  receive            # the second message
        ret                     # the first return of a process is exit

waits:  sys  wait
        ret

sends:  mv   s0, a0
        mv   s1, a1
        mv   a0, s1
        li   a1, 7
        sys  send
        mv   a0, s0
        sys  wait
        li   a0, 8
        sys  sleepms
        mv   a0, s1
        li   a1, 8
        sys  send
        ret
