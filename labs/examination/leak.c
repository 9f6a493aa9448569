/* leak.c - main, copy */

/* It should print: 3 copies, and give back all memory	*/

#include <xinu.h>

void	copy(
	  const char	*text,
	  uint32	n
	)
{
	char	*room = getmem(n + 1);

	memcpy(room, text, n);
	room[n] = '\0';
	freemem(room, n);
}

process	main(void)
{
	copy("one", 3);
	copy("sixteen letters!", 16);
	copy("seven..", 7);
	printf("3 copies\n");
	sleepms(1);
	return OK;
}
