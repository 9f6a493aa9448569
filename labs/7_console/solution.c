/* lab.c - main, ask */

#include <xinu.h>

XINU_IMAGE(20, 2048);

#define	LINELEN	32

/*------------------------------------------------------------------------
 *  ask  -  Print a question, and read a line without its newline
 *------------------------------------------------------------------------
 */
static	void	ask(
	  const char	*question,
	  char		*line		/* At least LINELEN + 1 bytes	*/
	)
{
	int32	n;

	printf("%s? ", question);
	n = read(CONSOLE, line, LINELEN);
	if (n > 0 && line[n - 1] == '\n') {
		n--;
	}
	line[n > 0 ? n : 0] = '\0';
}

/*------------------------------------------------------------------------
 *  main  -  Ask for a name and a password, and wait for any key
 *------------------------------------------------------------------------
 */
process	main(void)
{
	char	name[LINELEN + 1], password[LINELEN + 1];

	ask("name", name);
	control(CONSOLE, TC_NOECHO, 0);
	ask("password", password);
	control(CONSOLE, TC_ECHO, 0);
	printf("\n");
	printf("hello, %s\n", strcmp(password, "secret") == 0 ? name : "stranger");
	printf("any key: ");
	control(CONSOLE, TC_MODEK, 0);
	getc(CONSOLE);
	control(CONSOLE, TC_MODEC, 0);
	printf("bye\n");
	sleepms(2);
	return OK;
}
