/* job.c - main, square, worker, start, rule */

/* It should print a line of 60 dashes, and below it: 7 * 7 = 49	*/

#include <xinu.h>

struct	job {
	int32	(*work)(int32);		/* What is done			*/
	int32	n;			/* With which number		*/
};

/*------------------------------------------------------------------------
 *  square  -  Add n up n times
 *------------------------------------------------------------------------
 */
int32	square(
	  int32		n
	)
{
	int32	i, sum = 0;

	for (i = 0; i < n; i++) {
		sum += n;
	}
	return sum;
}

/*------------------------------------------------------------------------
 *  worker  -  Do a job, and print what it came to
 *------------------------------------------------------------------------
 */
process	worker(
	  struct job	*job
	)
{
	int32	result = job->work(job->n);

	printf("%d * %d = %d\n", job->n, job->n, result);
	sleepms(2);			/* The console has to send it	*/
	return OK;
}

/*------------------------------------------------------------------------
 *  start  -  Make a process for a job, with the number in its name
 *------------------------------------------------------------------------
 */
pid32	start(
	  int32		(*work)(int32),
	  int32		n
	)
{
	char	name[PNMLEN];
	static struct job job;

	sprintf(name, "job %d", n);
	job.work = work;
	job.n = n;
	return create(worker, 1024, 20, name, (uint32)&job, 0);
}

/*------------------------------------------------------------------------
 *  rule  -  Print a line of dashes
 *------------------------------------------------------------------------
 */
void	rule(void)
{
	char	line[61];

	memset(line, '-', 60);
	line[60] = '\0';
	printf("%s\n", line);
}

/*------------------------------------------------------------------------
 *  main  -  Make a process, print a line, and let the process begin
 *------------------------------------------------------------------------
 */
process	main(void)
{
	pid32	p = start(square, 7);

	rule();
	resume(p);
	return OK;
}
