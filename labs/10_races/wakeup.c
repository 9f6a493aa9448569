/* wakeup.c - main, sleeper, waker */

#include <xinu.h>

XINU_IMAGE(30, 2048);

volatile int32	ready;			/* Whether the sleeper may go on	*/
pid32	who;				/* The sleeper				*/

/*------------------------------------------------------------------------
 *  sleeper  -  Suspend itself until it may go on
 *------------------------------------------------------------------------
 */
process	sleeper(void)
{
	if (!ready) {
		suspend(getpid());
	}
	printf("awake\n");
	sleepms(20);
	return OK;
}

/*------------------------------------------------------------------------
 *  waker  -  Let the sleeper go on
 *------------------------------------------------------------------------
 */
process	waker(void)
{
	ready = 1;
	resume(who);
	return OK;
}

/*------------------------------------------------------------------------
 *  main  -  Start both
 *------------------------------------------------------------------------
 */
process	main(void)
{
	who = create(sleeper, 1024, 20, "sleeper", 0, 0);
	resume(who);
	resume(create(waker, 1024, 20, "waker", 0, 0));
	return OK;
}
