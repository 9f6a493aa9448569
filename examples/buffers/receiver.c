/* receiver.c - main: the program at the higher place */

#include <xinu.h>

XINU_IMAGE(20, 1024);

/*------------------------------------------------------------------------
 *  main  -  Print the lines that come through a port, and give back their
 *		buffers to the pool that they are of
 *------------------------------------------------------------------------
 */
process	main(void)
{
	ptid32	port = receive();
	char	*buf;

	while ((buf = (char *)ptrecv(port)) != NULL) {
		printf("%s\n", buf);
		freebuf(buf);
	}
	ptdelete(port, PT_DROP);
	sleepms(1);
	return OK;
}
