# Receives the buffers and gives them back; makes a port of its own and deletes it.
        .place 6144
loop:   li   a0, 0
        sys  ptrecv
        sys  freebuf
        li   a0, 2
        sys  ptcreate
        mv   s0, a0
        li   a1, 5
        sys  ptsend
        mv   a0, s0
        li   a1, 0
        sys  ptreset
        mv   a0, s0
        li   a1, 1
        sys  ptdelete
        j    loop
