# Waits for messages, and for ticks.
        .place 3072
loop:   sys  receive
        li   a0, 2
        sys  recvtime
        j    loop
