/* lab.c - main, receiver */

#include <xinu.h>

#define	COUNT	5

/*------------------------------------------------------------------------
 *  receiver  -  Put what it is sent, a tick for each
 *------------------------------------------------------------------------
 */
process	receiver(
	  pid32		sender		/* Who sends			*/
	)
{
	umsg32	m;

	while ((m = receive()) != 0) {
		sleepms(1);
		putc(CONSOLE, m);
		send(sender, m);	/* It is done	*/
	}
	return OK;
}

/*------------------------------------------------------------------------
 *  main  -  Send COUNT letters, and then 0
 *------------------------------------------------------------------------
 */
process	main(void)
{
	pid32	to = create(receiver, 1024, 20, "receiver", getpid(), 0);
	int32	i;

	recvclr();
	resume(to);
	for (i = 0; i < COUNT; i++) {
		send(to, 'a' + i);
		receive();		/* Until it is done	*/
	}
	send(to, 0);
	sleepms(COUNT + 2);
	return OK;
}
