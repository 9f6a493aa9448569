"""Lines of a schedule that type a line: what `term` and sdk/type share."""

ECHO_ROOM = 20  # bytes of echo that wait to be sent
LINE_ROOM = 127  # characters of a line, without its end
MOST_TYPED = 64  # tokens of a line `type` of the schedule
RETURN, END_OF_INPUT = 13, 4  # the bytes of the return key and of control-D


def echo_of(byte):
    """How many bytes the echo of a typed byte has at most: return has two, and a control character may erase another one."""
    return 1 if 32 <= byte < 127 or byte > 127 else 2 if byte == RETURN else 6


def typed(text):
    """The lines of a schedule that type bytes: in parts whose echo has room, each of which is sent before the next."""
    part, echo = [], 0
    for byte in text:
        if echo + echo_of(byte) > ECHO_ROOM or len(part) == MOST_TYPED:
            yield from (f"type {' '.join(part)}", f"tx {echo}")
            part, echo = [], 0
        part, echo = part + [f"{byte:02x}"], echo + echo_of(byte)
    if part:
        yield from (f"type {' '.join(part)}", f"tx {echo}")
