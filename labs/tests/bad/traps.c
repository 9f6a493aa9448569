/* traps.c - main stores outside RAM */

#include <xinu.h>

process	main(void)
{
	printf("1111");
	*(volatile int32 *)RAMSIZE = 1;
	return OK;
}
