/* wakeup.c - main, sleeper, waker */

#include <xinu.h>

XINU_IMAGE(30, 2048);

sid32	ready;				/* Whether the sleeper may go on	*/

/*------------------------------------------------------------------------
 *  sleeper  -  Wait until it may go on
 *------------------------------------------------------------------------
 */
process	sleeper(void)
{
	wait(ready);
	printf("awake\n");
	sleepms(20);
	return OK;
}

/*------------------------------------------------------------------------
 *  waker  -  Let the sleeper go on
 *------------------------------------------------------------------------
 */
process	waker(void)
{
	signal(ready);
	return OK;
}

/*------------------------------------------------------------------------
 *  main  -  Start both
 *------------------------------------------------------------------------
 */
process	main(void)
{
	ready = semcreate(0);
	resume(create(sleeper, 1024, 20, "sleeper", 0, 0));
	resume(create(waker, 1024, 20, "waker", 0, 0));
	return OK;
}
