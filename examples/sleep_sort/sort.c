/* sort.c - main, sleeper */

#include <xinu.h>

int32	numbers[] = { 9, 4, 7, 1, 12, 4 };

#define	COUNT	(sizeof(numbers) / sizeof(numbers[0]))

/*------------------------------------------------------------------------
 *  sleeper  -  Print a number after so many ticks
 *------------------------------------------------------------------------
 */
process	sleeper(
	  int32		number
	)
{
	sleepms(number);
	printf("%d\n", number);
	return OK;
}

/*------------------------------------------------------------------------
 *  main  -  Make a sleeper for each number
 *------------------------------------------------------------------------
 */
process	main(void)
{
	uint32	i;

	for (i = 0; i < COUNT; i++) {
		resume(create(sleeper, 1024, 30, "sleeper", numbers[i], 0));
	}
	sleep(1);
	return OK;
}
