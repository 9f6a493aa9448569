/* nowhere.c - main */

#include <xinu.h>

int32	*count;				/* Never set: address 0			*/
void	(*report)(void);		/* Never set either			*/

/*------------------------------------------------------------------------
 *  main  -  Store to address 0, where the program's own first instruction
 *		is, and jump there
 *------------------------------------------------------------------------
 */
process	main(void)
{
	*(volatile int32 *)count = 0;
	report();
	return OK;
}
