/* Lists of one's own, and the proved ones beside them: the ready list, the waiters and the sleepers, each linked one way. */
#include <stdio.h>
#include "lists_c.h"

enum { PROCESSES = 40, CALLS = 3000, NONE = -1, NOWHERE = -2 };

/* A list begins at its head; each process has the next one, or NONE after the last, and NOWHERE if it is in no list. */
static int ready = NONE, waiters = NONE, sleepers = NONE, next[PROCESSES];
static int64_t key[PROCESSES];

/* Puts a process where a link to the next one is. */
static int64_t put(int *link, int p, int64_t k)
{
    next[p] = *link;
    key[p] = k;
    *link = p;
    return 0;
}

/* The process goes before the first of a lower priority, so after those of its own. */
static int64_t insert(int p, int64_t priority)
{
    int *link = &ready;
    while (*link != NONE && key[*link] >= priority)
        link = &next[*link];
    return put(link, p, priority);
}

static int64_t enqueue(int p)
{
    int *link = &waiters;
    while (*link != NONE)
        link = &next[*link];
    return put(link, p, 0);
}

/* The key of a sleeper is how many ticks it sleeps after the one before it. */
static int64_t sleep_for(int p, int64_t ticks)
{
    int *link = &sleepers;
    while (*link != NONE && key[*link] <= ticks) {
        ticks -= key[*link];
        link = &next[*link];
    }
    put(link, p, ticks);
    if (next[p] != NONE)
        key[next[p]] -= ticks;
    return 0;
}

static int64_t take_first(int *list)
{
    int p = *list;
    if (p == NONE)
        return REFUSED;
    *list = next[p];
    next[p] = NOWHERE;
    return p;
}

/* Takes a process out of a list, if it is there. Who sleeps after it sleeps as long as before. */
static int64_t take_out(int *list, int p)
{
    int *link = list;
    while (*link != NONE && *link != p)
        link = &next[*link];
    if (*link == NONE)
        return REFUSED;
    *link = next[p];
#ifndef MISTAKE
    if (list == &sleepers && next[p] != NONE)
        key[next[p]] += key[p];
#endif
    next[p] = NOWHERE;
    return 0;
}

static int64_t remove_process(int p)
{
    if (take_out(&ready, p) == 0 || take_out(&waiters, p) == 0)
        return 0;
    return take_out(&sleepers, p);
}

static int64_t tick(void)
{
    if (sleepers != NONE && key[sleepers] == 0)
        return REFUSED;
    if (sleepers != NONE)
        key[sleepers]--;
    return 0;
}

static int64_t answer(struct list_call c)
{
    int p = (int)c.process, is_free = next[p] == NOWHERE;
    switch (c.kind) {
    case INSERT:
        return is_free ? insert(p, c.key) : REFUSED;
    case ENQUEUE:
        return is_free ? enqueue(p) : REFUSED;
    case SLEEP:
        return is_free && c.key > 0 ? sleep_for(p, c.key) : REFUSED;
    case NEXT_READY:
        return take_first(&ready);
    case NEXT_WAITER:
        return take_first(&waiters);
    case REMOVE:
        return remove_process(p);
    case FIRST_PRIORITY:
        return ready == NONE ? REFUSED : key[ready];
    case FIRST_DELAY:
        return sleepers == NONE ? REFUSED : key[sleepers];
    case TICK:
        return tick();
    default:
        return sleepers != NONE && key[sleepers] == 0 ? take_first(&sleepers) : REFUSED;
    }
}

/* A number below another, the same ones in each run. */
static uint32_t below(uint32_t most)
{
    static uint32_t seed = 1;
    seed = seed * 1664525 + 1013904223;
    return (seed >> 8) % most;
}

int main(void)
{
    static const char *const names[] = {"insert",         "enqueue",     "sleep", "next_ready", "next_waiter", "remove",
                                        "first_priority", "first_delay", "tick",  "wake"};
    static struct list_call calls[CALLS];
    static int64_t answers[CALLS], proved[CALLS];
    int refused = 0;
    for (int p = 0; p < PROCESSES; p++)
        next[p] = NOWHERE;
    for (int k = 0; k < CALLS; k++) {
        calls[k] = (struct list_call){below(10), below(PROCESSES), below(20)};
        answers[k] = answer(calls[k]);
        refused += answers[k] == REFUSED;
    }
    if (list_answers(calls, CALLS, proved, CALLS) != ANSWERED) {
        puts("no memory");
        return 1;
    }
    for (int k = 0; k < CALLS; k++)
        if (answers[k] != proved[k]) {
            printf("call %d, %s of process %u with %u: %lld here, %lld by the proved lists\n", k + 1, names[calls[k].kind],
                   calls[k].process, calls[k].key, (long long)answers[k], (long long)proved[k]);
            return 1;
        }
    printf("%d calls, %d of them refused: the same answers\n", CALLS, refused);
    return 0;
}
