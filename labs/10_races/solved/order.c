/* order.c - main, one, two */

#include <xinu.h>

XINU_IMAGE(30, 2048);

sid32	left, right;			/* Who has which fork			*/
sid32	ended;				/* Which of the two have eaten		*/

/*------------------------------------------------------------------------
 *  one  -  Take the left fork, then the right one
 *------------------------------------------------------------------------
 */
process	one(void)
{
	wait(left);
	wait(right);
	signal(right);
	signal(left);
	signal(ended);
	return OK;
}

/*------------------------------------------------------------------------
 *  two  -  Take the left fork, then the right one
 *------------------------------------------------------------------------
 */
process	two(void)
{
	wait(left);
	wait(right);
	signal(right);
	signal(left);
	signal(ended);
	return OK;
}

/*------------------------------------------------------------------------
 *  main  -  Start both, and say when both have eaten
 *------------------------------------------------------------------------
 */
process	main(void)
{
	left = semcreate(1);
	right = semcreate(1);
	ended = semcreate(0);
	resume(create(one, 1024, 20, "one", 0, 0));
	resume(create(two, 1024, 20, "two", 0, 0));
	wait(ended);
	wait(ended);
	printf("both\n");
	sleepms(20);
	return OK;
}
