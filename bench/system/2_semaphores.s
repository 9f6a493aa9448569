# Makes a semaphore of its own, uses it and gives it up, and waits for the shared one.
        .place 1024
loop:   li   a0, 1
        sys  semcreate
        mv   s0, a0
        sys  wait
        mv   a0, s0
        sys  signal
        mv   a0, s0
        li   a1, 3
        sys  signaln
        mv   a0, s0
        li   a1, 2
        sys  semreset
        mv   a0, s0
        sys  semcount
        mv   a0, s0
        sys  semdelete
        li   a0, 7
        sys  wait
        j    loop
