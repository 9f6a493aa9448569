/* lab.c - main, keep */

#include <xinu.h>

XINU_IMAGE(20, 4096);

#define	BLOCK	5			/* Where the text is kept		*/
#define	MIRROR	6			/* Where a copy of it is		*/

/*------------------------------------------------------------------------
 *  keep  -  Write a block until the disk has done it
 *------------------------------------------------------------------------
 */
static	void	keep(
	  const char	*block,
	  uint32	n		/* The block's number		*/
	)
{
	while (write(DISK0, block, n) == SYSERR) {
		;
	}
}

/*------------------------------------------------------------------------
 *  main  -  Keep a text in two blocks and in a file, and read it back
 *------------------------------------------------------------------------
 */
process	main(void)
{
	char	block[DISK_BLKSIZ];
	char	text[8];
	did32	file;

	printf("%d blocks\n", control(DISK0, RD_CTL_BLOCKS, 0));
	memset(block, 0, DISK_BLKSIZ);
	memcpy(block, "kept", 4);
	keep(block, BLOCK);
	keep(block, MIRROR);

	memset(block, 0, DISK_BLKSIZ);
	if (read(DISK0, block, BLOCK) == SYSERR) {
		read(DISK0, block, MIRROR);
	}
	printf("block [%s]\n", block);

	memset(text, 0, sizeof(text));
	file = open(LFILESYS, "log", "rw");
	write(file, "kept", 4);
	seek(file, 0);
	read(file, text, 4);
	printf("file [%s]\n", text);
	close(file);
	sleepms(1);
	return OK;
}
