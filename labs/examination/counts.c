/* counts.c - main, waiter */

#include <xinu.h>

sid32	s;

process	waiter(void)
{
	wait(s);
	putc(CONSOLE, '!');
	return OK;
}

process	main(void)
{
	pid32	p;

	s = semcreate(1);
	resume(create(waiter, 1024, 30, "one", 0, 0));
	p = create(waiter, 1024, 30, "two", 0, 0);
	resume(p);
	resume(create(waiter, 1024, 30, "three", 0, 0));
	printf(" %d", semcount(s));
	kill(p);
	printf(" %d", semcount(s));
	signaln(s, 2);
	printf(" %d\n", semcount(s));
	sleepms(1);
	return OK;
}
