/* overflow.c - main, worker, depth */

#include <xinu.h>

/*------------------------------------------------------------------------
 *  depth  -  Go n calls deeper, each with a buffer on the stack, and stop
 *		there
 *------------------------------------------------------------------------
 */
int32	depth(
	  int32		n,		/* How many calls are left	*/
	  char		*above		/* The buffer of the caller	*/
	)
{
	char	buffer[64];

	memset(buffer, n, 64);
	if (n == 0) {
		asm volatile ("ebreak");	/* As a debugger would	*/
	} else {
		depth(n - 1, buffer);
	}
	return buffer[0] + above[0];
}

/*------------------------------------------------------------------------
 *  worker  -  Go deeper than a stack of 512 bytes has room for
 *------------------------------------------------------------------------
 */
process	worker(void)
{
	return depth(20, "");
}

/*------------------------------------------------------------------------
 *  main  -  Give the worker a small stack
 *------------------------------------------------------------------------
 */
process	main(void)
{
	resume(create(worker, 512, 20, "worker", 0, 0));
	return OK;
}
