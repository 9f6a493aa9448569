/* lab.c - main, worker, late */

#include <xinu.h>

XINU_IMAGE(30, 1024);

#define	WORKERS	4
#define	PHASES	2

sid32	arrived, go;			/* Who is at the barrier; who may pass	*/
sid32	ended;				/* Who has ended both phases		*/

/*------------------------------------------------------------------------
 *  worker  -  Work 2n - 1 ticks in each phase, and put the phase's digit
 *------------------------------------------------------------------------
 */
process	worker(
	  int32		n
	)
{
	int32	phase;

	for (phase = 1; phase <= PHASES; phase++) {
		sleepms(2 * n - 1);
		putc(CONSOLE, '0' + phase);
		signal(arrived);
		wait(go);
	}
	signal(ended);
	return OK;
}

/*------------------------------------------------------------------------
 *  late  -  Put a blank and the answer of a wait
 *------------------------------------------------------------------------
 */
process	late(void)
{
	printf(" %d", wait(go));
	return OK;
}

/*------------------------------------------------------------------------
 *  main  -  Start the workers, and release two who come late
 *------------------------------------------------------------------------
 */
process	main(void)
{
	int32	i, phase;

	arrived = semcreate(0);
	go = semcreate(0);
	ended = semcreate(0);
	for (i = 1; i <= WORKERS; i++) {
		resume(create(worker, 1024, 20, "worker", i, 0));
	}
	for (phase = 1; phase <= PHASES; phase++) {
		for (i = 1; i <= WORKERS; i++) {
			wait(arrived);
		}
		signaln(go, WORKERS);
	}
	for (i = 1; i <= WORKERS; i++) {
		wait(ended);
	}

	resume(create(late, 1024, 40, "late", 0, 0));
	printf(" %d", semcount(go));
	semreset(go, 0);
	resume(create(late, 1024, 40, "late", 0, 0));
	semdelete(go);
	semdelete(arrived);
	semdelete(ended);
	sleepms(1);
	return OK;
}
