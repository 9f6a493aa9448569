/* The proved lists, called from C: crates/lists_c, built by `rt lib`. */
#include <stddef.h>
#include <stdint.h>

enum { INSERT, ENQUEUE, SLEEP, NEXT_READY, NEXT_WAITER, REMOVE, FIRST_PRIORITY, FIRST_DELAY, TICK, WAKE };
enum { ANSWERED, NO_ROOM, NO_MEMORY };
#define REFUSED (-1)

/* A call on the lists: a process from 0 to 999, and its priority or how many ticks it sleeps. */
struct list_call {
    uint32_t kind, process, key;
};

/* Makes the calls, one after another, on lists that are empty at first, and writes what each answers. */
uint32_t list_answers(const struct list_call *calls, size_t count, int64_t *answers, size_t room);
