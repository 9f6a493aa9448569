/* calls.c - call, and the calls that this kernel has: getpid, exit, putc */
#include <stdio.h>
#include "kernel.h"

/* The caller gets the reply of its call. */
static void reply(struct process *caller, int32_t value)
{
    printf("ret %d %d\n", currpid, value);
    caller->x[10] = (uint32_t)value;
}

/* die - the current process ends: its parent is sent its number, and the next one runs */
void die(void)
{
    struct process *dead = &proctab[currpid], *parent = &proctab[dead->parent];
    if (parent->state != FREE && !parent->has_message) {
        parent->has_message = true;
        parent->message = currpid;
    }
    *dead = (struct process){.state = FREE};
    prcount--;
    resched();
}

/* getpid - answer the caller's number */
static void call_getpid(struct process *caller)
{
    printf("call %d getpid\n", currpid);
    reply(caller, currpid);
}

/* exit - end the caller */
static void call_exit(struct process *caller)
{
    (void)caller;
    printf("call %d exit\n", currpid);
    die();
}

/* putc - put a byte on the console; a return comes before a newline */
static void call_putc(struct process *caller)
{
    int32_t device = (int32_t)caller->x[10], letter = (int32_t)caller->x[11];
    printf("call %d putc %d %d\n", currpid, device, letter);
    if (device != 0)
        not_yet("putc on device", device);
    if ((letter & 255) == '\n' && !put_output('\r'))
        not_yet("putc without room for byte", '\r');
    if (!put_output(letter & 255))
        not_yet("putc without room for byte", letter & 255);
    reply(caller, 0);
}

static void (*const calls[NCALLS + 1])(struct process *caller) = {[1] = call_getpid, [9] = call_exit, [41] = call_putc};

/* call - carry out the call whose number is in a7 */
void call(struct process *caller)
{
    uint32_t number = caller->x[17];
    caller->pc += 4;
    if (number < 1 || number > NCALLS) {
        printf("call %d unknown %d\n", currpid, (int32_t)number);
        reply(caller, -1);
    } else if (calls[number] == NULL) {
        not_yet("call", number);
    } else {
        calls[number](caller);
    }
}

/* step - the current process takes a step; those of the null process do nothing */
void step(void)
{
    static const char *const causes[] = {
        [FETCH] = "fetch", [ILLEGAL] = "illegal", [BREAK] = "break", [TARGET] = "target", [LOAD] = "load", [STORE] = "store",
    };
    struct process *p = &proctab[currpid];
    if (currpid == 0)
        return;
    if (p->pc == INITRET) {
        call_exit(p);
        return;
    }
    enum ending ending = execute(p);
    if (ending == ECALL) {
        call(p);
    } else if (ending != GOES_ON) {
        printf("trap %d %s\n", currpid, causes[ending]);
        die();
    }
}
