# pieces.s - takes pieces of the heap, and gives some of them back

        .entry main
main:   li   a0, 16
        sys  getmem
        mv   s0, a0
        li   a0, 24
        sys  getmem
        mv   s1, a0
        li   a0, 40
        sys  getmem
        mv   s2, a0
        li   a0, 8              # this one stays
        sys  getmem
        mv   a0, s0
        li   a1, 16
        sys  freemem            # the first hole
        mv   a0, s2
        li   a1, 40
        sys  freemem            # the second
        li   a0, 32
        sys  getmem
        li   a0, 48
        sys  getmem
        mv   a0, s1
        li   a1, 24
        sys  freemem
        sys  exit
