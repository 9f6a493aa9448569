/* early.c - main, reader, writer */

/* It should print: 42	*/

#include <xinu.h>

int32	value;
sid32	written;

process	reader(void)
{
	wait(written);
	printf("%d\n", value);
	sleepms(1);
	return OK;
}

process	writer(void)
{
	signal(written);
	value = 42;
	return OK;
}

process	main(void)
{
	written = semcreate(0);
	resume(create(reader, 1024, 25, "reader", 0, 0));
	resume(create(writer, 1024, 20, "writer", 0, 0));
	return OK;
}
