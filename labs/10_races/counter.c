/* counter.c - main, adder */

#include <xinu.h>

XINU_IMAGE(30, 2048);

volatile int32	counter;
sid32	ended;				/* Which adders have ended		*/

/*------------------------------------------------------------------------
 *  adder  -  Add 1 ten times
 *------------------------------------------------------------------------
 */
process	adder(void)
{
	int32	i;

	for (i = 0; i < 10; i++) {
		counter = counter + 1;
	}
	signal(ended);
	return OK;
}

/*------------------------------------------------------------------------
 *  main  -  Start two adders, and print what they came to
 *------------------------------------------------------------------------
 */
process	main(void)
{
	ended = semcreate(0);
	resume(create(adder, 1024, 20, "one", 0, 0));
	resume(create(adder, 1024, 20, "two", 0, 0));
	wait(ended);
	wait(ended);
	printf("counter %d\n", counter);
	sleepms(20);			/* The console has to send it		*/
	return OK;
}
