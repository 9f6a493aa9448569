/* lab.c - main, worker, spinner */

#include <xinu.h>

XINU_IMAGE(30, 1024);

/*------------------------------------------------------------------------
 *  worker  -  Put a letter three times
 *------------------------------------------------------------------------
 */
process	worker(
	  char		letter
	)
{
	int32	i;

	for (i = 0; i < 3; i++) {
		putc(CONSOLE, letter);
	}
	return OK;
}

/*------------------------------------------------------------------------
 *  spinner  -  Use the processor for ever
 *------------------------------------------------------------------------
 */
process	spinner(void)
{
	while (TRUE) {
		;
	}
}

/*------------------------------------------------------------------------
 *  main  -  Start three workers and a spinner, and end them all
 *------------------------------------------------------------------------
 */
process	main(void)
{
	pid32	a, b, c, s;

	a = create(worker, 1024, 20, "a", 'a', 0);
	b = create(worker, 1024, 20, "b", 'b', 0);
	c = create(worker, 1024, 20, "c", 'c', 0);
	s = create(spinner, 1024, 10, "spinner", 0, 0);
	resume(a);
	resume(b);
	resume(c);
	resume(s);
	sleepms(1);			/* Let those below main run	*/

	suspend(s);
	printf(" %d\n", getprio(s));
	sleepms(1);			/* Let the console send it	*/
	kill(s);
	return OK;
}
