# 5_sleep.s - a process that sleeps: another one runs, and a tick wakes it

main:   li   a0, 2
        sys  sleepms
        sys  exit
