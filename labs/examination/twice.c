/* twice.c - main, answerer */

/* It should print: 14 20	*/

#include <xinu.h>

process	answerer(
	  pid32		asker
	)
{
	while (TRUE) {
		send(asker, 2 * receive());
	}
}

process	main(void)
{
	pid32	p = create(answerer, 1024, 30, "answerer", getpid(), 0);
	int32	first, second;

	resume(p);
	send(p, 7);
	first = receive();
	send(p, 10);
	recvclr();
	second = receive();
	printf("%d %d\n", first, second);
	sleepms(1);
	kill(p);
	return OK;
}
