/* The proved heap, called from C: crates/heap_c, built by `rt lib`. */
#include <stddef.h>
#include <stdint.h>

enum { GETMEM, FREEMEM, GETSTK, FREESTK };
enum { ANSWERED, NO_HEAP, NO_MEMORY };
#define REFUSED 0xffffffffu

/* A call on a heap: what is given back begins at the address, or is a stack whose highest word is there. */
struct heap_call {
    uint32_t kind, address, bytes;
};

/* Makes the calls, one after another, on a heap from low up to high, and writes what each answers. */
uint32_t heap_answers(uint32_t low, uint32_t high, const struct heap_call *calls, size_t count, uint32_t *answers, size_t room);
