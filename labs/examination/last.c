/* last.c - main, worker */

#include <xinu.h>

XINU_IMAGE(30, 2048);

volatile int32	left = 2;

process	worker(
	  int32		letter
	)
{
	left = left - 1;
	if (left == 0) {
		putc(CONSOLE, letter);
		sleepms(20);
	}
	return OK;
}

process	main(void)
{
	resume(create(worker, 1024, 20, "a", 'a', 0));
	resume(create(worker, 1024, 20, "b", 'b', 0));
	return OK;
}
