/* panic.c - main */

#include <xinu.h>

/*------------------------------------------------------------------------
 *  main  -  Send to a port that nobody receives from
 *------------------------------------------------------------------------
 */
process	main(void)
{
	int32	port, i;

	port = ptcreate(200);
	for (i = 0; i < 200; i++) {
		ptsend(port, i);
	}
	return OK;
}
