/* compiles_for_ever.c - macros that become ten million calls */

#include <xinu.h>

#define	A	putc(CONSOLE, '1');
#define	B	A A A A A A A A A A
#define	C	B B B B B B B B B B
#define	D	C C C C C C C C C C
#define	E	D D D D D D D D D D
#define	F	E E E E E E E E E E
#define	G	F F F F F F F F F F

process	main(void)
{
	G G G G G G G G G G
	return OK;
}
