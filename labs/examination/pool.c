/* pool.c - main */

#include <xinu.h>

process	main(void)
{
	bpid32	pool = mkbufpool(16, 3);
	char	*a = getbuf(pool), *b = getbuf(pool);

	freebuf(a);
	freebuf(b);
	printf("%d", freebuf(a));
	printf(" %s\n", getbuf(pool) == a ? "a" : "b");
	sleepms(1);
	return OK;
}
