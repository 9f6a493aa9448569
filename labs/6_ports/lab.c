/* lab.c - main, sender */

#include <xinu.h>

XINU_IMAGE(30, 1024);

#define	BUFFERS	4			/* Buffers of the pool			*/
#define	ROOM	2			/* Messages that the port holds		*/

bpid32	pool;
ptid32	port;

/*------------------------------------------------------------------------
 *  sender  -  Send all buffers of the pool through the port
 *------------------------------------------------------------------------
 */
process	sender(void)
{
	char	*buf;
	int32	i;

	for (i = 0; i < BUFFERS; i++) {
		buf = getbuf(pool);
		ptsend(port, (umsg32)buf);
	}
	return OK;
}

/*------------------------------------------------------------------------
 *  main  -  Reset the port while the sender waits for room; then take what
 *		still comes
 *------------------------------------------------------------------------
 */
process	main(void)
{
	pool = mkbufpool(32, BUFFERS);
	port = ptcreate(ROOM);
	resume(create(sender, 1024, 20, "sender", 0, 0));
	sleepms(1);			/* The port is full, the sender waits	*/

	ptreset(port, PT_DROP);
	sleepms(1);			/* The sender goes on			*/

	freebuf((char *)ptrecv(port));
	ptdelete(port, PT_DROP);
	return OK;
}
