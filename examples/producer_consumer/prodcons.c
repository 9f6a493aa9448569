/* prodcons.c - main, producer, consumer */

#include <xinu.h>

#define	COUNT	5			/* How many numbers are produced	*/

int32	n;				/* The number that the two share	*/
sid32	produced, consumed;		/* What has happened to it last		*/

/*------------------------------------------------------------------------
 *  producer  -  Put COUNT numbers, each when the one before was consumed
 *------------------------------------------------------------------------
 */
process	producer(void)
{
	int32	i;

	for (i = 1; i <= COUNT; i++) {
		wait(consumed);
		n = i;
		signal(produced);
	}
	return OK;
}

/*------------------------------------------------------------------------
 *  consumer  -  Print COUNT numbers, each once it was produced
 *------------------------------------------------------------------------
 */
process	consumer(void)
{
	int32	i;

	for (i = 1; i <= COUNT; i++) {
		wait(produced);
		printf("%d\n", n);
		signal(consumed);
	}
	sleepms(1);
	return OK;
}

/*------------------------------------------------------------------------
 *  main  -  Make the semaphores and the two processes
 *------------------------------------------------------------------------
 */
process	main(void)
{
	produced = semcreate(0);
	consumed = semcreate(1);
	resume(create(consumer, 1024, 20, "consumer", 0, 0));
	resume(create(producer, 1024, 20, "producer", 0, 0));
	return OK;
}
