/* boot.c - boot: the images are loaded, and a process is made for each */
#include <stdio.h>
#include <stdlib.h>
#include <string.h>
#include "kernel.h"

enum { HEADER = 28 };

uint32_t heap_low;

static uint32_t rounded(uint32_t bytes)
{
    return (bytes + 7) / 8 * 8;
}

static uint32_t word_of(const uint8_t *bytes)
{
    return bytes[0] | bytes[1] << 8 | bytes[2] << 16 | (uint32_t)bytes[3] << 24;
}

static _Noreturn void refuse(const char *path, const char *why)
{
    fprintf(stderr, "%s: %s\n", path, why);
    exit(2);
}

/* load - an image file is put in its place (docs/FORMATS.md, Image file); its process has no stack yet */
static void load(const char *path, struct process *p)
{
    static uint8_t bytes[RAM_SIZE + 1];
    FILE *file = fopen(path, "rb");
    size_t length = file ? fread(bytes, 1, sizeof bytes, file) : 0;
    if (file == NULL)
        refuse(path, "can't be read");
    fclose(file);
    if (length < HEADER || length > RAM_SIZE || memcmp(bytes, "XIMG", 4) != 0)
        refuse(path, "no image file");
    uint32_t place = word_of(bytes + 8), size = word_of(bytes + 12);
    if (size != length - HEADER || place > RAM_SIZE - size)
        refuse(path, "it doesn't fit RAM");
    memcpy(ram + place, bytes + HEADER, size);
    if (rounded(place + size) > heap_low)
        heap_low = rounded(place + size);
    p->pc = word_of(bytes + 16);
    p->priority = (int)word_of(bytes + 20);
    p->stack_size = word_of(bytes + 24) < 400 ? 400 : word_of(bytes + 24);
}

/* give_stack - a process gets its stack, the highest part of the heap below this address; the answer is where that begins */
static uint32_t give_stack(const char *path, struct process *p, uint32_t below)
{
    if (p->stack_size > below - heap_low || rounded(p->stack_size) > below - heap_low)
        refuse(path, "no room for its stack");
    p->stack_size = rounded(p->stack_size);
    p->stack = below - p->stack_size;
    p->x[1] = INITRET;
    p->x[2] = (below - 4) & ~15u;
    return p->stack;
}

/* boot - the null process runs, the processes of the images become ready in order, and there is one resched */
void boot(int count, char *const paths[])
{
    uint32_t below = RAM_SIZE;
    strcpy(proctab[0].name, "prnull");
    proctab[0].state = CURRENT;
    for (int k = 0; k < count; k++) {
        snprintf(proctab[k + 1].name, sizeof proctab[k + 1].name, "image%d", k + 1);
        load(paths[k], &proctab[k + 1]);
    }
    for (int k = 0; k < count; k++)
        below = give_stack(paths[k], &proctab[k + 1], below);
    for (int pid = 1; pid <= count; pid++)
        ready(pid);
    prcount = count;
    resched();
}
