/* reader.c - main */

#include <xinu.h>

/*------------------------------------------------------------------------
 *  main  -  Ask for a name that nobody types
 *------------------------------------------------------------------------
 */
process	main(void)
{
	char	name[20];
	int32	length;

	printf("Who are you? ");
	length = read(CONSOLE, name, 20);
	printf("%d bytes\n", length);
	sleepms(2);
	return OK;
}
