/* dropped.c - main, taker, giver */

#include <xinu.h>

XINU_IMAGE(30, 2048);

pid32	who;				/* The taker				*/

/*------------------------------------------------------------------------
 *  taker  -  Add three messages, and print their sum
 *------------------------------------------------------------------------
 */
process	taker(void)
{
	int32	i, sum = 0;

	for (i = 0; i < 3; i++) {
		sum += receive();
	}
	printf("sum %d\n", sum);
	sleepms(20);
	return OK;
}

/*------------------------------------------------------------------------
 *  giver  -  Send three messages, and let the taker run after each
 *------------------------------------------------------------------------
 */
process	giver(void)
{
	int32	i;

	for (i = 1; i <= 3; i++) {
		send(who, i);
		yield();
	}
	return OK;
}

/*------------------------------------------------------------------------
 *  main  -  Start both
 *------------------------------------------------------------------------
 */
process	main(void)
{
	who = create(taker, 1024, 20, "taker", 0, 0);
	resume(who);
	resume(create(giver, 1024, 20, "giver", 0, 0));
	return OK;
}
