/* sender.c - main: the program at the lower place */

#include <xinu.h>

XINU_IMAGE(20, 1024);

#define	RECEIVER 2			/* The process of the second image	*/
#define	SIZE	32			/* Bytes of a buffer			*/
#define	COUNT	2			/* Buffers of the pool			*/

char	*lines[] = { "one", "two", "three", "four", NULL };

/*------------------------------------------------------------------------
 *  main  -  Send lines in buffers through a port; no byte is copied twice
 *------------------------------------------------------------------------
 */
process	main(void)
{
	bpid32	pool = mkbufpool(SIZE, COUNT);
	ptid32	port = ptcreate(COUNT);
	char	*buf;
	int32	i;

	send(RECEIVER, port);
	for (i = 0; lines[i] != NULL; i++) {
		buf = getbuf(pool);		/* Waits until one is free	*/
		strncpy(buf, lines[i], SIZE);
		ptsend(port, (umsg32)buf);
	}
	ptsend(port, NULL);
	return OK;
}
