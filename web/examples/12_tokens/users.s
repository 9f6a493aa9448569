# users.s - three processes share two tokens

        .entry main
name:   .ascii "user\0"
        .zero 11
        .align

main:   li   a0, 2
        sys  semcreate
        mv   s0, a0             # the semaphore
        li   s1, 3              # how many users are to be made
more:   la   a0, user
        li   a1, 400
        li   a2, 20
        la   a3, name
        mv   a4, s0
        mv   a5, s1             # so many ticks it keeps its token
        sys  create
        sys  resume
        addi s1, s1, -1
        bne  s1, zero, more
        ret

user:   mv   s0, a0
        mv   s1, a1
        sys  wait
        mv   a0, s1
        sys  sleepms            # the token is in use
        mv   a0, s0
        sys  signal
        li   a0, 0
        addi a1, s1, 48         # its number, as a digit
        sys  putc
        li   a0, 9              # longer than all of them
        sys  sleepms
        ret
