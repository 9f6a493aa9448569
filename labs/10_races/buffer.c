/* buffer.c - main, producer, consumer */

#include <xinu.h>

XINU_IMAGE(30, 2048);

volatile int32	slots[4];		/* The buffer				*/
volatile int32	in, out;		/* Where the next item goes and comes	*/
sid32	room, items;			/* How many slots are free and full	*/
sid32	ended;				/* Whether the consumer has ended	*/

/*------------------------------------------------------------------------
 *  producer  -  Put two items into the buffer
 *------------------------------------------------------------------------
 */
process	producer(
	  int32		n
	)
{
	int32	i;

	for (i = 0; i < 2; i++) {
		wait(room);
		slots[in] = 10 * n + i;
		in = (in + 1) & 3;
		signal(items);
	}
	return OK;
}

/*------------------------------------------------------------------------
 *  consumer  -  Take four items, and print their sum
 *------------------------------------------------------------------------
 */
process	consumer(void)
{
	int32	i, sum = 0;

	for (i = 0; i < 4; i++) {
		wait(items);
		sum += slots[out];
		slots[out] = 0;
		out = (out + 1) & 3;
		signal(room);
	}
	printf("sum %d\n", sum);
	signal(ended);
	return OK;
}

/*------------------------------------------------------------------------
 *  main  -  Start two producers and the consumer
 *------------------------------------------------------------------------
 */
process	main(void)
{
	room = semcreate(4);
	items = semcreate(0);
	ended = semcreate(0);
	resume(create(producer, 1024, 20, "one", 1, 1));
	resume(create(producer, 1024, 20, "two", 1, 2));
	resume(create(consumer, 1024, 20, "taker", 0, 0));
	wait(ended);
	sleepms(20);
	return OK;
}
