/* shell.c - main, keys, split */

#include <xinu.h>

XINU_IMAGE(20, 2048);

#define	LINELEN	64			/* The longest line that is read	*/

/*------------------------------------------------------------------------
 *  keys  -  Show the numbers of the next keys up to q, whatever they mean
 *		else: in raw mode no key has a meaning
 *------------------------------------------------------------------------
 */
static	void	keys(void)
{
	int32	c;

	control(CONSOLE, TC_MODER, 0);
	do {
		c = getc(CONSOLE);
		printf("%02x ", c);
	} while (c != 'q');
	control(CONSOLE, TC_MODEC, 0);
	printf("\n");
}

/*------------------------------------------------------------------------
 *  split  -  End a line's command with a zero, and tell where its argument
 *		is, which is empty if there is none
 *------------------------------------------------------------------------
 */
static	char	*split(
	  char		*line		/* What was typed		*/
	)
{
	while (*line != '\0' && *line != ' ') {
		line++;
	}
	if (*line == ' ') {
		*line++ = '\0';
	}
	return line;
}

/*------------------------------------------------------------------------
 *  main  -  Read lines and do what they say, until the end of the input
 *------------------------------------------------------------------------
 */
process	main(void)
{
	char	line[LINELEN + 1], *argument;
	int32	n;

	open(CONSOLE, "", "");
	while (TRUE) {
		printf("> ");
		n = read(CONSOLE, line, LINELEN);
		if (n == EOF) {
			break;
		}
		if (n > 0 && line[n - 1] == '\n') {
			n--;
		}
		line[n] = '\0';
		argument = split(line);
		if (strcmp(line, "echo") == 0) {
			puts(argument);
		} else if (strcmp(line, "keys") == 0) {
			keys();
		} else if (strcmp(line, "sleep") == 0) {
			sleepms(atoi(argument));
		} else if (strcmp(line, "time") == 0) {
			printf("%u s\n", clktime());
		} else if (n > 0) {
			printf("%s: echo, keys, sleep, time, or control-D\n", line);
		}
	}
	puts("bye");
	close(CONSOLE);
	sleepms(2);		/* Let the console send echo and output */
	return OK;
}
