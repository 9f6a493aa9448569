/* does_not_compile.c - a semicolon is missing */

#include <xinu.h>

process	main(void)
{
	printf("1111")
	return OK;
}
