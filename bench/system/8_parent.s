# Makes a child that it kills before it goes on, and one that exits.
        .place 7168
loop:   jal  s1, new
        sys  resume
        mv   a0, s0
        li   a1, 5
        sys  chprio
        mv   a0, s0
        sys  getprio
        mv   a0, s0
        sys  resume
        mv   a0, s0
        sys  suspend
        mv   a0, s0
        sys  kill
        sys  recvclr
        jal  s1, new
        sys  resume
        mv   a0, s0
        sys  resume
        sys  recvclr
        j    loop
new:    la   a0, child
        li   a1, 400
        li   a2, 30
        la   a3, name
        li   a4, 0
        li   a5, 0
        sys  create
        mv   s0, a0
        jalr zero, 0(s1)
child:  sys  getpid
        sys  suspend
        sys  exit
name:   .ascii "child"
        .zero 11
