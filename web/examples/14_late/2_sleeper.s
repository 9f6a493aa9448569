# sleeper.s - sleeps three ticks, and puts a letter as soon as it runs again
        .place 4096
        .priority 10
        li   a0, 3
        sys  sleepms
        li   a0, 0
        li   a1, 42             # *
        sys  putc
        li   a0, 2
        sys  sleepms
        sys  exit
