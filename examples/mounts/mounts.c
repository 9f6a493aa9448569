/* mounts.c - main */

#include <xinu.h>

#define	LONG	"log/of/the/year/2026/in/november"	/* 32 bytes: one too many	*/

/*------------------------------------------------------------------------
 *  main  -  Mount a prefix until the table of names is full, and meet
 *		each refusal on the way; open a file by its long name
 *------------------------------------------------------------------------
 */
process	main(void)
{
	int32	mounted;
	did32	file;

	printf("a text of 32 bytes: %d\n", mount(LONG, "", LFILESYS));
	printf("no device 10: %d\n", mount("log/", "", 10));
	mounted = 0;
	while (mount("log/", "", LFILESYS) == OK) {
		mounted++;
	}
	printf("%d names are mounted\n", mounted);
	file = open(NAMESPACE, "log/today", "rw");
	printf("log/today is on device %d\n", file);
	close(file);
	printf("seek on the console: %d\n", seek(CONSOLE, 0));
	sleepms(1);		/* Let the console send the lines */
	return OK;
}
