/* philosophers.c - main, philosopher */

#include <xinu.h>

#define	SEATS	5			/* Philosophers, and forks		*/
#define	MEALS	2			/* How often each eats			*/

sid32	fork[SEATS];			/* A token for each fork on the table	*/

/*------------------------------------------------------------------------
 *  philosopher  -  Think, take both forks, eat, put them back
 *------------------------------------------------------------------------
 */
process	philosopher(
	  int32		seat		/* 0 to SEATS - 1		*/
	)
{
	int32	left = seat, right = (seat + 1) % SEATS;
	int32	first, second, meal;

	/* Everybody takes the fork of the lower number first: so no circle of	*/
	/*   philosophers can wait each for the next one's fork			*/

	first = left < right ? left : right;
	second = left < right ? right : left;

	for (meal = 0; meal < MEALS; meal++) {
		sleepms(1);				/* think	*/
		wait(fork[first]);
		wait(fork[second]);
		printf("%d eats\n", seat);
		sleepms(2);
		signal(fork[second]);
		signal(fork[first]);
	}
	return OK;
}

/*------------------------------------------------------------------------
 *  main  -  Lay the table, let the philosophers in, and wait for all
 *------------------------------------------------------------------------
 */
process	main(void)
{
	pid32	who[SEATS];
	int32	i;

	for (i = 0; i < SEATS; i++) {
		fork[i] = semcreate(1);
		who[i] = create(philosopher, 1024, 20, "philosopher", i, 0);
	}
	for (i = 0; i < SEATS; i++) {
		resume(who[i]);
	}
	for (i = 0; i < SEATS; i++) {
		while (getprio(who[i]) != SYSERR) {	/* Lives	*/
			sleepms(1);
		}
	}
	printf("all have eaten\n");
	sleepms(1);
	return OK;
}
