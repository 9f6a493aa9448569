# disk.s - three processes write a block each, and read it back

        .entry main
name:   .ascii "keeper\0"
        .zero 9
        .align
bytes:  .zero 512               # one block for each process
        .zero 512
        .zero 512

main:   li   s0, 3
        la   s1, bytes
        li   s2, 10             # the number of the first block
next:   la   a0, keeps
        li   a1, 400
        li   a2, 20
        la   a3, name
        mv   a4, s1
        mv   a5, s2
        sys  create
        sys  resume
        addi s1, s1, 512
        addi s2, s2, 1
        addi s0, s0, -1
        bne  s0, zero, next
        ret

keeps:  mv   s0, a0             # the address of its bytes
        mv   s1, a1             # the number of its block
        addi t0, s1, 87         # a letter: 97 is a
        sb   t0, 0(s0)
again:  li   a0, 2              # the raw disk
        mv   a1, s0
        mv   a2, s1
        sys  write
        bne  a0, zero, again    # the disk failed
        sb   zero, 0(s0)
        li   a0, 2
        mv   a1, s0
        mv   a2, s1
        sys  read
        lbu  a1, 0(s0)
        li   a0, 0              # the console
        sys  putc
        li   a0, 1
        sys  sleepms
        ret
