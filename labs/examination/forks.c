/* forks.c - main, eater */

/* It should print: 3 have eaten	*/

#include <xinu.h>

sid32	forks[3];
sid32	ended;

process	eater(
	  int32		n
	)
{
	wait(forks[n]);
	sleepms(1);
	wait(forks[(n + 1) % 3]);
	signal(forks[(n + 1) % 3]);
	signal(forks[n]);
	signal(ended);
	return OK;
}

process	main(void)
{
	int32	i;

	ended = semcreate(0);
	for (i = 0; i < 3; i++) {
		forks[i] = semcreate(1);
	}
	for (i = 0; i < 3; i++) {
		resume(create(eater, 1024, 20, "eater", i, 0));
	}
	for (i = 0; i < 3; i++) {
		wait(ended);
	}
	printf("3 have eaten\n");
	sleepms(1);
	return OK;
}
