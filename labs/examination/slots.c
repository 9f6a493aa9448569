/* slots.c - main, taker */

#include <xinu.h>

XINU_IMAGE(30, 2048);

process	taker(void)
{
	printf("got %d\n", receive());
	return OK;
}

process	main(void)
{
	pid32	p = create(taker, 1024, 20, "taker", 0, 0);
	int32	first, second;

	resume(p);
	first = send(p, 7);
	second = send(p, 8);
	printf("%d %d\n", first, second);
	sleepms(3);
	printf("%d\n", send(p, 9));
	sleepms(1);
	return OK;
}
