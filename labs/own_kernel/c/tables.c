/* tables.c - print_tables: the tables, as a `dump` and the end of a run show them */
#include <stdio.h>
#include "kernel.h"

static void print_process(int pid, const struct process *p)
{
    printf("proc %d %s %d %d ", pid, p->state == CURRENT ? "current" : "ready", p->priority, p->parent);
    if (p->has_message)
        printf("%d ", p->message);
    else
        printf("- ");
    for (const char *letter = p->name; *letter != '\0'; letter++)
        printf("%02x", *letter);
    puts(p->name[0] == '\0' ? "-" : "");
}

static void print_free(uint32_t from, uint32_t to)
{
    if (to > from)
        printf("free %u %u\n", from, to - from);
}

/* The free blocks are what lies between the stacks, of which a later process has the lower one. */
static void print_heap(void)
{
    uint32_t low = heap_low;
    for (int pid = NPROC - 1; pid > 0; pid--)
        if (proctab[pid].state != FREE) {
            print_free(low, proctab[pid].stack);
            low = proctab[pid].stack + proctab[pid].stack_size;
        }
    print_free(low, RAM_SIZE);
}

/* print_tables - the tables, in the order of docs/FORMATS.md */
void print_tables(void)
{
    printf("now %d %d\n", ticks, quantum);
    for (int pid = 0; pid < NPROC; pid++)
        if (proctab[pid].state != FREE)
            print_process(pid, &proctab[pid]);
    for (int pid = readylist; pid != NOBODY; pid = proctab[pid].next)
        printf("ready %d %d\n", pid, proctab[pid].priority);
    print_heap();
    printf("console cooked 0 0 %d 0 run\ndisk0 0\ndisk1 clean\n", output_length());
}
