/* console.c - put_output, transmit: the console's output, a ring of bytes */
#include <stdio.h>
#include "kernel.h"

static uint8_t ring[OBUFLEN];
static int first = 0, count = 0;

/* put_output - a byte joins the output, if there is room */
bool put_output(uint8_t letter)
{
    if (count == OBUFLEN)
        return false;
    ring[(first + count++) % OBUFLEN] = letter;
    return true;
}

int output_length(void)
{
    return count;
}

/* transmit - the console sends the first byte of the output, if there is one */
void transmit(void)
{
    if (count == 0)
        return;
    printf("con %02x\n", ring[first]);
    first = (first + 1) % OBUFLEN;
    count--;
}
