# Two processes add 1 to a word three times each, under a mutex.
.place 0
.priority 30
        li   a0, 0
        sys  semcreate          # semaphore 4: which of them have ended
        li   a0, 1
        sys  semcreate          # semaphore 5: who may add
        la   a0, adder
        li   a1, 400
        li   a2, 20
        la   a3, name
        li   a4, 0
        li   a5, 0
        sys  create
        sys  resume
        la   a0, adder
        li   a1, 400
        li   a2, 20
        la   a3, name
        li   a4, 0
        li   a5, 0
        sys  create
        sys  resume
        li   a0, 4
        sys  wait
        li   a0, 4
        sys  wait
        la   t0, total
        lw   a1, 0(t0)
        addi a1, a1, 48
        li   a0, 0
        sys  putc
        li   a0, 20             # the console has to send it
        sys  sleepms
        sys  exit
adder:  la   s0, total
        li   s1, 3
next:
        li   a0, 5
        sys  wait
        lw   t0, 0(s0)
        addi t0, t0, 1
        sw   t0, 0(s0)
        li   a0, 5
        sys  signal
        addi s1, s1, -1
        bne  s1, zero, next
        li   a0, 4
        sys  signal
        sys  exit
total:  .word 0
name:   .ascii "adder\0"
        .zero 2
