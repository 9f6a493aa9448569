# sender.s - sends a letter to process 1, after some ticks
        .place 4096
        li   a0, 3              # so many ticks
        sys  sleepms
        li   a0, 1
        li   a1, 33             # !
        sys  send
        sys  exit
