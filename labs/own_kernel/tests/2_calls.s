# 2_calls.s - calls with a reply, one that the kernel doesn't have, and a trap

main:   sys  getpid
        li   a7, 99
        ecall
        li   a7, -1
        ecall
        sw   a0, 2(sp)
        sys  exit
