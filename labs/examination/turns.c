/* turns.c - main, worker */

#include <xinu.h>

XINU_IMAGE(30, 2048);

process	worker(
	  int32		letter
	)
{
	putc(CONSOLE, letter);
	if (letter == 'b') {
		chprio(getpid(), 15);
	} else {
		yield();
	}
	putc(CONSOLE, letter);
	return OK;
}

process	main(void)
{
	resume(create(worker, 1024, 20, "a", 'a', 0));
	resume(create(worker, 1024, 25, "b", 'b', 0));
	resume(create(worker, 1024, 20, "c", 'c', 0));
	sleepms(3);
	return OK;
}
