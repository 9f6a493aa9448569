# shared.s - makes the lock, and has the counter to which the others add
#! lock 4 guards counter
#! counter = rounds

        .place 1024
        li   a0, 1
        sys  semcreate          # the first semaphore that a program makes is 4
rest:   li   a0, 1000
        sys  sleepms
        j    rest
        .zero 40
counter: .word 0                # at 1100
