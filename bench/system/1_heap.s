# Makes what the images share: pool 0, whose semaphore is 4, port 0 with 5 and 6, and semaphore 7. Then takes memory and gives it back.
        li   a0, 12
        li   a1, 8
        sys  mkbufpool
        li   a0, 4
        sys  ptcreate
        li   a0, 0
        sys  semcreate
loop:   li   a0, 100
        sys  getmem
        mv   s0, a0
        li   a0, 200
        sys  getstk
        li   a1, 200
        sys  freestk
        mv   a0, s0
        li   a1, 100
        sys  freemem
        sys  yield
        j    loop
