/* The proved console, called from C: crates/console_c, built by `rt lib`. */
#include <stddef.h>
#include <stdint.h>

enum { TYPE, TAKE, PUT, SEND, CONTROL };
enum { RAW = 1, CBREAK, COOKED, WAITING, ECHO, NO_ECHO };
enum { ANSWERED, NO_ROOM, NO_MEMORY };
#define REFUSED (-1)
#define END (-2)
#define OUTPUT 256

/* A call on the console: a byte is typed, taken, put or sent, or a control function is called by its number. */
struct console_call {
    uint8_t kind, byte;
};

/* Makes the calls, one after another, on a console in cooked mode with echo on, and writes what each answers. A byte of output that is sent
   is told by OUTPUT more. */
uint32_t console_answers(const struct console_call *calls, size_t count, int64_t *answers, size_t room);
