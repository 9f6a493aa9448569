# hundred.s - as shared.s, but its counter begins with 100 and goes down; leave it as it is
#! lock 4 guards counter
#! counter = 100 - rounds

        .place 1024
        li   a0, 1
        sys  semcreate
rest:   li   a0, 1000
        sys  sleepms
        j    rest
        .zero 40
counter: .word 100              # at 1100
