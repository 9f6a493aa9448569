/* mailbox.c - main, sender */

#include <xinu.h>

XINU_IMAGE(30, 2048);

process	sender(
	  int32		port
	)
{
	int32	i;

	for (i = 1; i <= 4; i++) {
		printf("%d", ptsend(port, i));
	}
	return OK;
}

process	main(void)
{
	int32	port = ptcreate(2);

	resume(create(sender, 1024, 20, "sender", port, 0));
	sleepms(1);
	printf(" %d ", ptrecv(port));
	sleepms(1);
	ptdelete(port, PT_DROP);
	sleepms(1);
	return OK;
}
