/* lab.c - main, dots, worker */

#include <xinu.h>

#define	PERIOD	10			/* Ticks from one W to the next		*/

int32	lengths[] = { 3, 6, 2 };	/* How many ticks each piece of work takes */

/*------------------------------------------------------------------------
 *  dots  -  Put a dot at each tick
 *------------------------------------------------------------------------
 */
process	dots(void)
{
	while (TRUE) {
		sleepms(1);
		putc(CONSOLE, '.');
	}
}

/*------------------------------------------------------------------------
 *  worker  -  Put a W and work, three times, and tell main
 *------------------------------------------------------------------------
 */
process	worker(
	  pid32		boss		/* Who is told			*/
	)
{
	int32	i;

	for (i = 0; i < 3; i++) {
		putc(CONSOLE, 'W');
		sleepms(lengths[i]);	/* The work			*/
		sleepms(PERIOD);
	}
	send(boss, OK);
	return OK;
}

/*------------------------------------------------------------------------
 *  main  -  Wait 60 ticks at most until the worker is done
 *------------------------------------------------------------------------
 */
process	main(void)
{
	pid32	d = create(dots, 1024, 40, "dots", 0, 0);

	resume(create(worker, 1024, 20, "worker", getpid(), 0));
	resume(d);
	putc(CONSOLE, (int32)recvtime(60) == TIMEOUT ? '!' : 'E');
	sleepms(1);
	kill(d);
	return OK;
}
