/* logs.c - main, logger */

#include <xinu.h>

#define	LINES	3			/* Lines of a log		*/

static	sid32	done;			/* Logs that are written	*/

/*------------------------------------------------------------------------
 *  logger  -  Write a log of a few lines, read it back, and say what is
 *		there
 *------------------------------------------------------------------------
 */
process	logger(
	  uint32	name,		/* The file's name		*/
	  char		letter		/* What each line begins with	*/
	)
{
	char	line[8];
	char	log[64];
	did32	file;
	int32	i, n;

	file = open(LFILESYS, (char *)name, "rw");
	for (i = 1; i <= LINES; i++) {
		n = sprintf(line, "%c%d\n", letter, i);
		write(file, line, n);
	}
	seek(file, 0);
	n = read(file, log, sizeof(log));
	printf("%s, %d bytes: %c%c..%c%c\n", (char *)name, n, log[0], log[1], log[n - 3], log[n - 2]);
	close(file);
	signal(done);
	return OK;
}

/*------------------------------------------------------------------------
 *  main  -  Start two processes that write a log each, and wait for both
 *------------------------------------------------------------------------
 */
process	main(void)
{
	done = semcreate(0);
	resume(create(logger, 2048, 20, "logger", (uint32)"log1", 'a'));
	resume(create(logger, 2048, 20, "logger", (uint32)"log2", 'b'));
	wait(done);
	wait(done);
	printf("both logs are written\n");
	sleepms(1);		/* Let the console send the lines */
	return OK;
}
