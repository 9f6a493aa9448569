# Two producers put 1 and 2 into a buffer of two slots, under a mutex; a consumer adds them.
.place 0
.priority 30
        li   a0, 2
        sys  semcreate          # semaphore 4: how many slots are free
        li   a0, 0
        sys  semcreate          # semaphore 5: how many are full
        li   a0, 1
        sys  semcreate          # semaphore 6: who may put
        la   a0, put
        li   a1, 400
        li   a2, 20
        la   a3, first
        li   a4, 1
        li   a5, 0
        sys  create
        sys  resume
        la   a0, put
        li   a1, 400
        li   a2, 20
        la   a3, first
        li   a4, 2
        li   a5, 0
        sys  create
        sys  resume
        la   a0, take
        li   a1, 400
        li   a2, 20
        la   a3, second
        li   a4, 0
        li   a5, 0
        sys  create
        sys  resume
        sys  exit
put:    mv   s2, a0
        li   a0, 4
        sys  wait
        li   a0, 6
        sys  wait
        la   s0, place
        lw   t0, 0(s0)          # the place of the next item
        la   t1, slots
        add  t1, t1, t0
        sw   s2, 0(t1)
        xori t0, t0, 4
        sw   t0, 0(s0)
        li   a0, 6
        sys  signal
        li   a0, 5
        sys  signal
        sys  exit
take:   li   s0, 0
        li   s1, 2
        la   s2, slots
next:
        li   a0, 5
        sys  wait
        lw   t0, 0(s2)
        add  s0, s0, t0
        addi s2, s2, 4
        addi s1, s1, -1
        bne  s1, zero, next
        addi a1, s0, 48
        li   a0, 0
        sys  putc
        li   a0, 20             # the console has to send it
        sys  sleepms
        sys  exit
place:  .word 0
slots:  .word 0
        .word 0
first:  .ascii "put\0"
second: .ascii "take\0"
        .zero 3
