# A process waits until another one signals.
.place 0
.priority 30
        li   a0, 0
        sys  semcreate          # semaphore 4: whether the sleeper may go on
        la   a0, sleeps
        li   a1, 400
        li   a2, 20
        la   a3, first
        li   a4, 0
        li   a5, 0
        sys  create
        sys  resume
        la   a0, wakes
        li   a1, 400
        li   a2, 20
        la   a3, second
        li   a4, 0
        li   a5, 0
        sys  create
        sys  resume
        sys  exit
sleeps:
        li   a0, 4
        sys  wait
awake:
        li   a0, 0
        li   a1, 97             # a
        sys  putc
        li   a0, 20             # the console has to send it
        sys  sleepms
        sys  exit
wakes:
        li   a0, 4
        sys  signal
        sys  exit
first:  .ascii "sleeps\0"
        .zero 1
second: .ascii "wakes\0"
        .zero 2
