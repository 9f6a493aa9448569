/* A heap of one's own, and the proved one beside it: the calls of the book's chapter 9 over free blocks, lowest address first. */
#include <stdio.h>
#include "heap_c.h"

enum { LOW = 0x1000, HIGH = 0x3000, CALLS = 2000 };

struct block {
    uint32_t at, bytes;
};
static struct block blocks[CALLS + 2] = {{LOW, HIGH - LOW}};
static int count = 1;

static uint32_t rounded(uint32_t bytes)
{
    return (bytes + 7) / 8 * 8;
}

static void drop(int k)
{
    for (count--; k < count; k++)
        blocks[k] = blocks[k + 1];
}

/* The lowest block that is large enough loses its low end. */
static uint32_t getmem(uint32_t bytes)
{
    bytes = rounded(bytes);
    for (int k = 0; bytes > 0 && k < count; k++)
        if (blocks[k].bytes >= bytes) {
            uint32_t at = blocks[k].at;
            blocks[k].at += bytes;
            blocks[k].bytes -= bytes;
            if (blocks[k].bytes == 0)
                drop(k);
            return at;
        }
    return REFUSED;
}

/* The highest block that is large enough loses its high end. */
static uint32_t getstk(uint32_t bytes)
{
    bytes = rounded(bytes);
    for (int k = count - 1; bytes > 0 && k >= 0; k--)
        if (blocks[k].bytes >= bytes) {
            blocks[k].bytes -= bytes;
            uint32_t top = blocks[k].at + blocks[k].bytes + bytes - 4;
            if (blocks[k].bytes == 0)
                drop(k);
            return top;
        }
    return REFUSED;
}

/* A block goes to its place by address, and merges with those that it touches. */
static uint32_t freemem(uint32_t at, uint32_t bytes)
{
    int k = 0;
    bytes = rounded(bytes);
    if (bytes == 0 || at % 8 != 0 || at < LOW || bytes > HIGH - LOW || at > HIGH - bytes)
        return REFUSED;
    while (k < count && blocks[k].at < at)
        k++;
    if ((k < count && blocks[k].at < at + bytes) || (k > 0 && blocks[k - 1].at + blocks[k - 1].bytes > at))
        return REFUSED;
    for (int j = count++; j > k; j--)
        blocks[j] = blocks[j - 1];
    blocks[k] = (struct block){at, bytes};
#ifndef MISTAKE
    if (k + 1 < count && at + bytes == blocks[k + 1].at) {
        blocks[k].bytes += blocks[k + 1].bytes;
        drop(k + 1);
    }
#endif
    if (k > 0 && blocks[k - 1].at + blocks[k - 1].bytes == at) {
        blocks[k - 1].bytes += blocks[k].bytes;
        drop(k);
    }
    return 0;
}

static uint32_t freestk(uint32_t top, uint32_t bytes)
{
    bytes = rounded(bytes);
    return top + 4 < bytes ? REFUSED : freemem(top + 4 - bytes, bytes);
}

static uint32_t answer(struct heap_call c)
{
    switch (c.kind) {
    case GETMEM:
        return getmem(c.bytes);
    case FREEMEM:
        return freemem(c.address, c.bytes);
    case GETSTK:
        return getstk(c.bytes);
    default:
        return freestk(c.address, c.bytes);
    }
}

/* A number below another, the same ones in each run. */
static uint32_t below(uint32_t most)
{
    static uint32_t seed = 1;
    seed = seed * 1664525 + 1013904223;
    return (seed >> 8) % most;
}

/* Half of the calls take memory, and the others give back what an earlier one took, at times with another size. */
static struct heap_call any_call(struct heap_call *held, int *holds)
{
    if (*holds == 0 || below(2) == 0)
        return (struct heap_call){below(2) ? GETSTK : GETMEM, 0, below(400)};
    int k = (int)below((uint32_t)*holds);
    struct heap_call c = held[k];
    held[k] = held[--*holds];
    c.bytes += below(20) == 0 ? 8 : 0;
    return c;
}

/* A call that gives back what this one took. */
static struct heap_call opposite(struct heap_call c, uint32_t address)
{
    return (struct heap_call){c.kind + 1, address, c.bytes};
}

int main(void)
{
    static const char *const names[] = {"getmem", "freemem", "getstk", "freestk"};
    static struct heap_call calls[CALLS], held[CALLS];
    static uint32_t answers[CALLS], proved[CALLS];
    int holds = 0, refused = 0;
    for (int k = 0; k < CALLS; k++) {
        calls[k] = any_call(held, &holds);
        answers[k] = answer(calls[k]);
        if (answers[k] == REFUSED)
            refused++;
        else if (calls[k].kind == GETMEM || calls[k].kind == GETSTK)
            held[holds++] = opposite(calls[k], answers[k]);
    }
    if (heap_answers(LOW, HIGH, calls, CALLS, proved, CALLS) != ANSWERED) {
        puts("no heap, or no memory");
        return 1;
    }
    for (int k = 0; k < CALLS; k++)
        if (answers[k] != proved[k]) {
            printf("call %d, %s of %u bytes: 0x%08x here, 0x%08x by the proved heap\n", k + 1, names[calls[k].kind],
                   calls[k].bytes, answers[k], proved[k]);
            return 1;
        }
    printf("%d calls, %d of them refused: the same answers\n", CALLS, refused);
    return 0;
}
