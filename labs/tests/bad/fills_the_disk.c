/* fills_the_disk.c - a program of two gigabytes */

#include <xinu.h>

char	bytes[2000000000] = { 1 };

process	main(void)
{
	return bytes[1];
}
