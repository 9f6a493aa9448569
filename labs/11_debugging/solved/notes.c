/* notes.c - main, save, first, second */

/* It should print: second: 3 bytes	*/

#include <xinu.h>

/*------------------------------------------------------------------------
 *  save  -  Write a text to a file, and close it
 *------------------------------------------------------------------------
 */
void	save(
	  did32		file,
	  const char	*text
	)
{
	write(file, text, strlen(text));
	close(file);
}

/*------------------------------------------------------------------------
 *  first  -  Write a note, and look after it later on
 *------------------------------------------------------------------------
 */
process	first(void)
{
	did32	file = open(LFILESYS, "first", "rw");

	save(file, "one");
	sleepms(10);
	return OK;
}

/*------------------------------------------------------------------------
 *  second  -  Open a file, and write a note when there is something to say
 *------------------------------------------------------------------------
 */
process	second(void)
{
	did32	file;

	sleepms(5);
	file = open(LFILESYS, "second", "rw");
	sleepms(10);
	printf("second: %d bytes\n", write(file, "two", 3));
	close(file);
	sleepms(2);			/* The console has to send it	*/
	return OK;
}

/*------------------------------------------------------------------------
 *  main  -  Start both
 *------------------------------------------------------------------------
 */
process	main(void)
{
	resume(create(first, 1024, 20, "first", 0, 0));
	resume(create(second, 1024, 20, "second", 0, 0));
	return OK;
}
