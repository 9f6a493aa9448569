/* ring.c - main, station */

#include <xinu.h>

#define	STATIONS 4			/* Processes of the ring		*/
#define	ROUNDS	2			/* How often the message goes round	*/

pid32	ring[STATIONS];

/*------------------------------------------------------------------------
 *  station  -  Take a number from the one before, and send the next on
 *------------------------------------------------------------------------
 */
process	station(
	  int32		place		/* 0 to STATIONS - 1		*/
	)
{
	pid32	next = ring[(place + 1) % STATIONS];
	umsg32	number;
	int32	i;

	for (i = 0; i < ROUNDS; i++) {
		number = receive();
		printf("%d has %u\n", place, number);
		send(next, number + 1);
	}
	return OK;
}

/*------------------------------------------------------------------------
 *  main  -  Make the ring, and send the first number into it
 *------------------------------------------------------------------------
 */
process	main(void)
{
	int32	i;

	for (i = 0; i < STATIONS; i++) {
		ring[i] = create(station, 1024, 20, "station", i, 0);
	}
	for (i = 0; i < STATIONS; i++) {
		resume(ring[i]);
	}
	send(ring[0], 100);
	sleepms(8);
	return OK;
}
