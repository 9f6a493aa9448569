# Sleeps, and signals the shared semaphore.
        .place 4096
loop:   li   a0, 1
        sys  sleepms
        li   a0, 7
        sys  signal
        sys  clktime
        li   a0, 0
        sys  sleep
        j    loop
