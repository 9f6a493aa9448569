/* echo.c - main */

#include <xinu.h>

process	main(void)
{
	char	line[20];
	int32	n = read(CONSOLE, line, 20);

	printf("%d %d\n", n, line[0]);
	sleepms(1);
	return OK;
}
