# writer.s - writes a line into a new file

        .entry main
name:   .ascii "note\0"
mode:   .ascii "nw\0"           # it is new, and written
line:   .ascii "kept\n"
        .align

main:   li   a0, 3              # the file system
        la   a1, name
        la   a2, mode
        sys  open
        mv   s0, a0             # the device that has it open
        la   a1, line
        li   a2, 5
        sys  write
        mv   a0, s0
        sys  close
        sys  exit
