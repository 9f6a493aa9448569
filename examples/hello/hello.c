/* hello.c - main */

#include <xinu.h>

XINU_IMAGE(20, 1024);

/*------------------------------------------------------------------------
 *  main  -  Write a line on the console, and say who did it
 *------------------------------------------------------------------------
 */
process	main(void)
{
	printf("hello, world, from process %d\n", getpid());
	sleepms(1);		/* The run ends with its last process,	*/
	return OK;		/*   so let the console send the line	*/
}
