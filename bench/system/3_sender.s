# Sends messages to the next image and to itself.
        .place 2048
        sys  getpid
        mv   s0, a0
loop:   addi a0, s0, 1
        addi s1, s1, 1
        mv   a1, s1
        sys  send
        mv   a0, s0
        mv   a1, s1
        sys  send
        sys  recvclr
        sys  yield
        j    loop
