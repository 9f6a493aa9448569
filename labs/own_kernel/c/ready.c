/* ready.c - ready, resched: who is ready, and who runs */
#include <stdio.h>
#include "kernel.h"

struct process proctab[NPROC];
int currpid = 0, prcount = 0, quantum = QUANTUM, readylist = NOBODY;

/* Whether a process of the ready list stays before another one that becomes ready. */
static bool stays_before(const struct process *listed, const struct process *newcomer)
{
#if MISTAKE == 2
    return listed->priority > newcomer->priority;
#else
    return listed->priority >= newcomer->priority;
#endif
}

/* ready - a process becomes ready: it comes after all whose priority isn't less */
void ready(int pid)
{
    int *at = &readylist;
    while (*at != NOBODY && stays_before(&proctab[*at], &proctab[pid]))
        at = &proctab[*at].next;
    proctab[pid].state = READY;
    proctab[pid].next = *at;
    *at = pid;
}

/* Whether the current process keeps the processor: it still runs, and its priority is greater than that of the first ready one. */
static bool keeps_cpu(const struct process *current, const struct process *first)
{
#if MISTAKE == 1
    return current->state == CURRENT && current->priority >= first->priority;
#else
    return current->state == CURRENT && current->priority > first->priority;
#endif
}

/* resched - the current process gives way to the first of the ready list, unless it keeps the processor */
void resched(void)
{
    int before = currpid;
    if (readylist == NOBODY || keeps_cpu(&proctab[before], &proctab[readylist]))
        return;
    if (proctab[before].state == CURRENT)
        ready(before);
    currpid = readylist;
    readylist = proctab[currpid].next;
    proctab[currpid].state = CURRENT;
    quantum = QUANTUM;
    if (currpid != before)
        printf("run %d\n", currpid);
}
