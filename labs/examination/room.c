/* room.c - main, taker, giver */

#include <xinu.h>

XINU_IMAGE(30, 2048);

pid32	who;

process	taker(void)
{
	printf("%d\n", receive() + receive());
	sleepms(20);
	return OK;
}

process	giver(
	  int32		n
	)
{
	send(who, n);
	return OK;
}

process	main(void)
{
	who = create(taker, 1024, 25, "taker", 0, 0);
	resume(who);
	resume(create(giver, 1024, 20, "one", 1, 0));
	resume(create(giver, 1024, 20, "two", 2, 0));
	return OK;
}
