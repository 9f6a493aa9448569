# writer.s - makes a file with a line in it

        .place 8192
        .priority 12
        .entry main
name:   .ascii "notes\0"
mode:   .ascii "nw\0"
text:   .ascii "a line\n"
        .align

main:   li   a0, 3              # the file system
        la   a1, name
        la   a2, mode
        sys  open
        mv   s0, a0
        la   a1, text
        li   a2, 7
        sys  write
        mv   a0, s0
        sys  close
        ret
