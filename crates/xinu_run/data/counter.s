# Two processes add 1 to a word, by a load and a store each. The first process waits for both and puts the word as a digit.
.place 0
.priority 30
        li   a0, 0
        sys  semcreate          # semaphore 4: how many have added
        la   s0, name
        la   s1, adder
        mv   a0, s1
        li   a1, 400
        li   a2, 20
        mv   a3, s0
        li   a4, 0
        li   a5, 0
        sys  create
        sys  resume             # process 2 is in a0
        mv   a0, s1
        li   a1, 400
        li   a2, 20
        mv   a3, s0
        sys  create
        sys  resume
        li   a0, 4
        sys  wait
        li   a0, 4
        sys  wait
        la   s0, word
        lw   a1, 0(s0)
        addi a1, a1, 48
        li   a0, 0
        sys  putc
        li   a0, 20             # the console has to send it
        sys  sleepms
        sys  exit
adder:  la   s0, word
        lw   t0, 0(s0)
        addi t0, t0, 1
        sw   t0, 0(s0)
        li   a0, 4
        sys  signal
        sys  exit
word:   .word 0
name:   .ascii "adder\0"
        .zero 2
