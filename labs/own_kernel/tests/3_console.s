# 3_console.s - bytes that wait until the console sends them, and a return from the first function

main:   li   a0, 0
        li   a1, 104
        sys  putc
        li   a0, 0
        li   a1, 105
        sys  putc
        li   a0, 0
        li   a1, 10
        sys  putc
        ret
