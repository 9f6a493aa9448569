/* lab.c - main */

#include <xinu.h>

XINU_IMAGE(20, 4096);

#define	BLOCK	5			/* Where the text is kept		*/
#define	MIRROR	6			/* Where a copy of it is		*/

/*------------------------------------------------------------------------
 *  main  -  Keep a text in two blocks and in a file, and read it back
 *------------------------------------------------------------------------
 */
process	main(void)
{
	char	block[DISK_BLKSIZ];
	char	text[8];
	did32	file;

	printf("%d blocks\n", control(DISK0, RD_CTL_BLOCKS, 0));
	memset(block, 0, DISK_BLKSIZ);
	memcpy(block, "kept", 4);
	write(DISK0, block, BLOCK);
	write(DISK0, block, MIRROR);

	memset(block, 0, DISK_BLKSIZ);
	read(DISK0, block, BLOCK);
	printf("block [%s]\n", block);

	memset(text, 0, sizeof(text));
	file = open(LFILESYS, "log", "rw");
	write(file, "kept", 4);
	read(file, text, 4);
	printf("file [%s]\n", text);
	close(file);
	sleepms(1);
	return OK;
}
