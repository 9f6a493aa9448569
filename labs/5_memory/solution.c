/* lab.c - main, rounds, holes, buffers */

#include <xinu.h>

#define	ROUNDS	50

/*------------------------------------------------------------------------
 *  rounds  -  Take a large piece of the heap in each round, and print how
 *		many rounds there were memory for
 *------------------------------------------------------------------------
 */
static	void	rounds(void)
{
	char	*a;
	int32	i;

	for (i = 0; i < ROUNDS; i++) {
		a = getmem(40000);
		if ((int32)a == SYSERR) {
			break;
		}
		memset(a, i, 16);
		freemem(a, 40000);
	}
	printf("%d\n", i);
}

/*------------------------------------------------------------------------
 *  holes  -  Print whether most of the heap can be had in one piece, though
 *		one small piece of it stays taken
 *------------------------------------------------------------------------
 */
static	void	holes(void)
{
	char	*before, *small, *after, *large;

	before = getmem(300000);
	small = getstk(1000);		/* From the other end		*/
	after = getmem(300000);
	freemem(before, 300000);
	freemem(after, 300000);

	large = getmem(800000);
	printf("%s\n", (int32)large == SYSERR ? "no" : "yes");
	freemem(large, 800000);
	freestk(small, 1000);
}

/*------------------------------------------------------------------------
 *  buffers  -  Take buffers of a pool of two, and give one back twice
 *------------------------------------------------------------------------
 */
static	void	buffers(void)
{
	bpid32	pool = mkbufpool(64, 2);
	char	*a = getbuf(pool), *b = getbuf(pool), *c;

	printf("%d ", freebuf(a));
	printf("%d ", freebuf(a));
	c = getbuf(pool);
	printf("%s\n", c == a ? "same" : "other");
	freebuf(b);
	b = getbuf(pool);
	freebuf(b);
	freebuf(c);
}

/*------------------------------------------------------------------------
 *  main  -  The three, one after another
 *------------------------------------------------------------------------
 */
process	main(void)
{
	rounds();
	holes();
	buffers();
	sleepms(1);
	return OK;
}
