/* loops.c - main uses the processor for ever, and puts what it can */

#include <xinu.h>

process	main(void)
{
	while (TRUE) {
		putc(CONSOLE, '1');
	}
}
