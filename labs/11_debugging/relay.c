/* relay.c - main, stage */

/* It should print: sum 60	*/

#include <xinu.h>

/*------------------------------------------------------------------------
 *  stage  -  Add a number to each message, and pass it on
 *------------------------------------------------------------------------
 */
process	stage(
	  pid32		next,		/* Who is next			*/
	  int32		n		/* What is added		*/
	)
{
	while (TRUE) {
		send(next, receive() + n);
	}
}

/*------------------------------------------------------------------------
 *  main  -  Send a number through three stages, of which the last sends it
 *		back
 *------------------------------------------------------------------------
 */
process	main(void)
{
	pid32	stages[4], next = getpid();
	int32	i;

	for (i = 3; i >= 1; i--) {
		next = create(stage, 1024, 20, "stage", 9 * i, next);
		resume(next);
		stages[i] = next;
	}
	send(next, 6);
	printf("sum %d\n", receive());
	sleepms(2);			/* The console has to send it	*/
	for (i = 1; i <= 3; i++) {
		kill(stages[i]);
	}
	return OK;
}
