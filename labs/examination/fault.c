/* fault.c - main */

#include <xinu.h>

char	block[DISK_BLKSIZ];

process	main(void)
{
	block[0] = 'x';
	printf("%d", write(DISK0, block, 3));
	printf(" %d", read(DISK0, block, 3));
	printf(" %d\n", block[0]);
	sleepms(1);
	return OK;
}
