/* dropped.c - main, taker, giver */

#include <xinu.h>

XINU_IMAGE(30, 2048);

pid32	who;				/* The taker				*/
sid32	taken;				/* Whether it has the last message	*/

/*------------------------------------------------------------------------
 *  taker  -  Add three messages, and print their sum
 *------------------------------------------------------------------------
 */
process	taker(void)
{
	int32	i, sum = 0;

	for (i = 0; i < 3; i++) {
		sum += receive();
		signal(taken);
	}
	printf("sum %d\n", sum);
	sleepms(20);
	return OK;
}

/*------------------------------------------------------------------------
 *  giver  -  Send three messages, each after the one before was taken
 *------------------------------------------------------------------------
 */
process	giver(void)
{
	int32	i;

	for (i = 1; i <= 3; i++) {
		send(who, i);
		wait(taken);
	}
	return OK;
}

/*------------------------------------------------------------------------
 *  main  -  Start both
 *------------------------------------------------------------------------
 */
process	main(void)
{
	taken = semcreate(0);
	who = create(taker, 1024, 20, "taker", 0, 0);
	resume(who);
	resume(create(giver, 1024, 20, "giver", 0, 0));
	return OK;
}
