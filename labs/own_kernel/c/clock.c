/* clock.c - tick: the clock */
#include "kernel.h"

int ticks = 0;

/* tick - the quantum falls by one; at 0 it is whole again, and there is a resched */
void tick(void)
{
    ticks++;
    if (--quantum == 0) {
        quantum = QUANTUM;
        resched();
    }
}
