/* deadlock.c - main, clerk */

#include <xinu.h>

sid32	pen, paper;			/* A token for each			*/

/*------------------------------------------------------------------------
 *  clerk  -  Take two things, one after the other, and write
 *------------------------------------------------------------------------
 */
process	clerk(
	  sid32		first,		/* What is taken first		*/
	  sid32		second		/* What is taken after it	*/
	)
{
	wait(first);
	sleepms(1);
	wait(second);
	printf("written\n");
	signal(second);
	signal(first);
	return OK;
}

/*------------------------------------------------------------------------
 *  main  -  Let two clerks in, who take the things in opposite order
 *------------------------------------------------------------------------
 */
process	main(void)
{
	pen = semcreate(1);
	paper = semcreate(1);
	resume(create(clerk, 1024, 20, "alice", pen, paper));
	resume(create(clerk, 1024, 20, "bob", paper, pen));
	return OK;
}
