# Two processes take two forks each, in the same order.
.place 0
.priority 30
        li   a0, 1
        sys  semcreate          # semaphore 4: the left fork
        li   a0, 1
        sys  semcreate          # semaphore 5: the right fork
        li   a0, 0
        sys  semcreate          # semaphore 6: which of them have eaten
        la   a0, one
        li   a1, 400
        li   a2, 20
        la   a3, first
        li   a4, 0
        li   a5, 0
        sys  create
        sys  resume
        la   a0, two
        li   a1, 400
        li   a2, 20
        la   a3, second
        li   a4, 0
        li   a5, 0
        sys  create
        sys  resume
        li   a0, 6
        sys  wait
        li   a0, 6
        sys  wait
        li   a0, 0
        li   a1, 98             # b
        sys  putc
        li   a0, 20             # the console has to send it
        sys  sleepms
        sys  exit
one:
        li   a0, 4
        sys  wait
        li   a0, 5
        sys  wait
        li   a0, 5
        sys  signal
        li   a0, 4
        sys  signal
        li   a0, 6
        sys  signal
        sys  exit
two:
        li   a0, 4
        sys  wait
        li   a0, 5
        sys  wait
        li   a0, 5
        sys  signal
        li   a0, 4
        sys  signal
        li   a0, 6
        sys  signal
        sys  exit
first:  .ascii "one\0"
second: .ascii "two\0"
