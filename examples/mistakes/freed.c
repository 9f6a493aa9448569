/* freed.c - main */

#include <xinu.h>

/*------------------------------------------------------------------------
 *  main  -  Keep a pointer to memory that was given back
 *------------------------------------------------------------------------
 */
process	main(void)
{
	int32	*mine, *other;

	mine = (int32 *)getmem(8);
	*mine = 42;
	freemem(mine, 8);
	other = (int32 *)getmem(8);	/* The same address again	*/
	*other = 7;
	printf("mine is %d\n", *mine);
	freemem(mine, 8);
	printf("given back twice: %d\n", freemem(other, 8));
	sleepms(2);
	return OK;
}
