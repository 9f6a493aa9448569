/* bank.c - main, mover */

#include <xinu.h>

XINU_IMAGE(30, 2048);

volatile int32	here = 10, there = 10;
sid32	ended;

process	mover(
	  int32		n
	)
{
	here = here - n;
	there = there + n;
	signal(ended);
	return OK;
}

process	main(void)
{
	ended = semcreate(0);
	resume(create(mover, 1024, 20, "three", 3, 0));
	resume(create(mover, 1024, 20, "four", 4, 0));
	wait(ended);
	wait(ended);
	printf("%d\n", here + there);
	sleepms(20);
	return OK;
}
