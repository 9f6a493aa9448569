/* workers.c - main, worker */

#include <errno.h>
#include <stdio.h>
#include <stdlib.h>
#include <string.h>
#include <xcalls.h>

#define	WORKERS	3			/* Processes that work at once		*/
#define	ROUNDS	200			/* What each does so often		*/

static	sid32	done;			/* Workers that have ended		*/

/*------------------------------------------------------------------------
 *  worker  -  Take memory, fill it, set errno, and look whether all of it is
 *		as it was left, while others do the same
 *------------------------------------------------------------------------
 */
static	void	worker(
	  uint32	me,		/* The worker's number		*/
	  uint32	size		/* The most that it takes	*/
	)
{
	int	round, wrong = 0;
	uint32	n, k;

	for (round = 0; round < ROUNDS; round++) {
		n = 1 + (round * 37 + me) % size;
		char	*bytes = malloc(n);

		if (bytes == NULL) {
			wrong++;
			continue;
		}
		memset(bytes, me, n);
		errno = me;
		yield();
		for (k = 0; k < n && bytes[k] == (char)me; k++) {
			continue;
		}
		wrong += k < n || errno != (int)me;
		free(bytes);
	}
	printf("worker %u: %d rounds, %d wrong\n", (unsigned)me, round, wrong);
	xsignal(done);
}

/*------------------------------------------------------------------------
 *  main  -  Start the workers and wait for all of them
 *------------------------------------------------------------------------
 */
int	main(void)
{
	uint32	k;

	done = semcreate(0);
	for (k = 1; k <= WORKERS; k++) {
		if (xspawn(worker, 8192, 20, "worker", k, 100 * k) == SYSERR) {
			perror("xspawn");
			return EXIT_FAILURE;
		}
	}
	for (k = 1; k <= WORKERS; k++) {
		xwait(done);
	}
	printf("all %d are done\n", WORKERS);
	return EXIT_SUCCESS;
}
