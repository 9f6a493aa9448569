# Takes buffers and sends them through the shared port.
        .place 5120
loop:   li   a0, 0
        sys  getbuf
        mv   a1, a0
        li   a0, 0
        sys  ptsend
        j    loop
