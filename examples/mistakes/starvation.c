/* starvation.c - main, busy, patient */

#include <xinu.h>

volatile int32	turns;			/* How often the loop went round	*/

/*------------------------------------------------------------------------
 *  busy  -  Go round for ever, and never wait
 *------------------------------------------------------------------------
 */
process	busy(void)
{
	while (TRUE) {
		turns++;
	}
	return OK;
}

/*------------------------------------------------------------------------
 *  patient  -  Say so, once
 *------------------------------------------------------------------------
 */
process	patient(void)
{
	printf("my turn\n");
	return OK;
}

/*------------------------------------------------------------------------
 *  main  -  Start one process of a high priority and one of a low
 *------------------------------------------------------------------------
 */
process	main(void)
{
	resume(create(patient, 1024, 10, "patient", 0, 0));
	resume(create(busy, 1024, 30, "busy", 0, 0));
	return OK;
}
