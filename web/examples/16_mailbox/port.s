# port.s - a sender and a receiver over a port with room for one message

        .entry main
name:   .ascii "sender\0"
        .zero 9
        .align

main:   li   a0, 1
        sys  ptcreate
        mv   s0, a0             # the port
        la   a0, sends
        li   a1, 400
        li   a2, 20
        la   a3, name
        mv   a4, s0
        sys  create
        sys  resume
        mv   a0, s0             # the receiver
        sys  ptrecv
        mv   a0, s0
        sys  ptrecv
        sys  yield              # so that the sender goes on
        mv   a0, s0
        li   a1, 0
        sys  ptdelete
        sys  yield
        ret

sends:  mv   s0, a0
        li   s1, 7              # the first number
        li   s2, 4              # how many
next:   mv   a0, s0
        mv   a1, s1
        sys  ptsend
        addi s1, s1, 1
        addi s2, s2, -1
        bne  s2, zero, next
        ret
