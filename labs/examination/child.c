/* child.c - main, child */

#include <xinu.h>

process	child(void)
{
	return OK;
}

process	main(void)
{
	pid32	one = create(child, 1024, 30, "one", 0, 0);
	pid32	two = create(child, 1024, 30, "two", 0, 0);

	resume(two);
	resume(one);
	printf("%d", receive());
	printf(" %d\n", recvclr());
	sleepms(1);
	return OK;
}
