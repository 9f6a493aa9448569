/* sleepers.c - main, sleeper */

#include <xinu.h>

XINU_IMAGE(30, 2048);

process	sleeper(
	  int32		letter,
	  int32		ticks
	)
{
	sleepms(ticks);
	putc(CONSOLE, letter);
	return OK;
}

process	main(void)
{
	resume(create(sleeper, 1024, 20, "a", 'a', 5));
	resume(create(sleeper, 1024, 20, "b", 'b', 3));
	resume(create(sleeper, 1024, 20, "c", 'c', 5));
	resume(create(sleeper, 1024, 25, "d", 'd', 5));
	sleepms(8);
	return OK;
}
