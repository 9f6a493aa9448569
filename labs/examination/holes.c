/* holes.c - main */

#include <xinu.h>

process	main(void)
{
	char	*a = getmem(24), *b = getmem(24), *c, *d;

	freemem(a, 24);
	c = getmem(12);
	d = getmem(16);
	printf("%d %d %d\n", b - a, c - a, d - a);
	sleepms(1);
	return OK;
}
