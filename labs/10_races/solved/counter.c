/* counter.c - main, adder */

#include <xinu.h>

XINU_IMAGE(30, 2048);

volatile int32	counter;
sid32	ended;				/* Which adders have ended		*/
sid32	mutex;				/* Who may add				*/

/*------------------------------------------------------------------------
 *  adder  -  Add 1 ten times
 *------------------------------------------------------------------------
 */
process	adder(void)
{
	int32	i;

	for (i = 0; i < 10; i++) {
		wait(mutex);
		counter = counter + 1;
		signal(mutex);
	}
	signal(ended);
	return OK;
}

/*------------------------------------------------------------------------
 *  main  -  Start two adders, and print what they came to
 *------------------------------------------------------------------------
 */
process	main(void)
{
	mutex = semcreate(1);
	ended = semcreate(0);
	resume(create(adder, 1024, 20, "one", 0, 0));
	resume(create(adder, 1024, 20, "two", 0, 0));
	wait(ended);
	wait(ended);
	printf("counter %d\n", counter);
	sleepms(20);			/* The console has to send it		*/
	return OK;
}
