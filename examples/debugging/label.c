/* label.c - main, clerk */

#include <xinu.h>

char	label[8];			/* Both clerks write here	*/

/*------------------------------------------------------------------------
 *  clerk  -  Write a label, wait for the printer, and print it
 *------------------------------------------------------------------------
 */
process	clerk(
	  char		*what		/* Seven characters		*/
	)
{
	memcpy(label, what, 8);
	sleepms(2);
	printf("%s\n", label);
	sleepms(1);
	return OK;
}

/*------------------------------------------------------------------------
 *  main  -  Let two clerks in
 *------------------------------------------------------------------------
 */
process	main(void)
{
	resume(create(clerk, 1024, 30, "apples", (int32)"apples ", 0));
	resume(create(clerk, 1024, 30, "pears", (int32)"pears  ", 0));
	return OK;
}
