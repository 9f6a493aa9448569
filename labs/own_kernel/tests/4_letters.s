# 4_letters.s - a process that counts before each of its letters; beside others, their turns can be seen

main:   li   s0, 4
next:   li   t0, 6
count:  addi t0, t0, -1
        bne  t0, zero, count
        sys  getpid
        addi a1, a0, 96
        li   a0, 0
        sys  putc
        addi s0, s0, -1
        bne  s0, zero, next
        sys  exit
