/* kept.c - main, adder, sum, keeper */

#include <xinu.h>

/*------------------------------------------------------------------------
 *  sum  -  Add the numbers up to n, each call with rows on the stack
 *------------------------------------------------------------------------
 */
int32	sum(
	  int32		n
	)
{
	volatile int32	rows[8];

	for (int32 i = 0; i < 8; i++)
		rows[i] = n;
	return n == 0 ? 0 : rows[0] + sum(n - 1);
}

/*------------------------------------------------------------------------
 *  adder  -  Print a sum
 *------------------------------------------------------------------------
 */
process	adder(void)
{
	printf("sum %d\n", sum(12));
	return OK;
}

/*------------------------------------------------------------------------
 *  keeper  -  Keep four numbers until a message comes, and print them
 *------------------------------------------------------------------------
 */
process	keeper(void)
{
	volatile int32	kept[4] = { 1, 2, 3, 4 };

	receive();
	printf("kept %d %d %d %d\n", kept[0], kept[1], kept[2], kept[3]);
	return OK;
}

/*------------------------------------------------------------------------
 *  main  -  Give both processes small stacks
 *------------------------------------------------------------------------
 */
process	main(void)
{
	pid32	first = create(adder, 256, 30, "adder", 0, 0);
	pid32	second = create(keeper, 256, 30, "keeper", 0, 0);

	resume(second);
	resume(first);
	send(second, 1);
	sleepms(2);
	return OK;
}
