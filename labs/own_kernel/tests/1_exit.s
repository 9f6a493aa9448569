# 1_exit.s - a process that exits: instructions, one call, the tables at the end

main:   li   t0, 3
again:  addi t0, t0, -1
        bne  t0, zero, again
        sys  exit
