/* disk.c - main, keeper */

#include <xinu.h>

#define	KEEPERS	3

/*------------------------------------------------------------------------
 *  keeper  -  Write a block of one letter, again if the disk failed, read
 *		it back, and say what is there
 *------------------------------------------------------------------------
 */
process	keeper(
	  uint32	block,		/* The block's number		*/
	  char		letter
	)
{
	char	bytes[DISK_BLKSIZ];

	memset(bytes, letter, DISK_BLKSIZ);
	while (write(DISK0, bytes, block) == SYSERR) {
		printf("block %u: failed\n", block);
	}
	memset(bytes, 0, DISK_BLKSIZ);
	if (read(DISK0, bytes, block) == OK) {
		printf("block %u: %c..%c\n", block, bytes[0], bytes[DISK_BLKSIZ - 1]);
	}
	return OK;
}

/*------------------------------------------------------------------------
 *  main  -  Start three processes that use the disk at once
 *------------------------------------------------------------------------
 */
process	main(void)
{
	uint32	blocks;
	int32	i;

	if (open(DISK0, "", "") != DISK0) {
		printf("no disk\n");
		sleepms(1);
		return SYSERR;
	}
	blocks = control(DISK0, RD_CTL_BLOCKS, 0);
	for (i = 0; i < KEEPERS; i++) {
		resume(create(keeper, 2048, 20, "keeper", blocks - KEEPERS + i, 'a' + i));
	}
	sleepms(1);		/* Let the keepers run: no tick comes before they are done */
	printf("block %u: %d\n", blocks, write(DISK0, NULL, blocks));
	close(DISK0);
	sleepms(1);
	return OK;
}
