/* numbers.c - main, push */

/* It should print: squares: 5 numbers, 25 is the last	*/

#include <xinu.h>

struct	list {
	int32	*items;			/* Memory for them		*/
	uint32	room;			/* For how many			*/
	uint32	count;			/* How many there are		*/
};

/*------------------------------------------------------------------------
 *  push  -  Put a number behind the others; if there is no room, the list
 *		moves to memory for twice as many
 *------------------------------------------------------------------------
 */
void	push(
	  struct list	*list,
	  int32		n
	)
{
	int32	*larger;

	if (list->count == list->room) {
		larger = (int32 *)getmem(2 * list->room * sizeof(int32));
		memcpy(larger, list->items, list->count * sizeof(int32));
		list->room = 2 * list->room;
		freemem(list->items, list->room * sizeof(int32));
		list->items = larger;
	}
	list->items[list->count++] = n;
}

/*------------------------------------------------------------------------
 *  main  -  Make a list of squares, and print a title and a line about it
 *------------------------------------------------------------------------
 */
process	main(void)
{
	struct	list list = { (int32 *)getmem(4 * sizeof(int32)), 4, 0 };
	char	*title = getmem(16), *line;
	int32	i;

	strncpy(title, "squares", 16);
	for (i = 1; i <= 5; i++) {
		push(&list, i * i);
	}
	line = getmem(32);
	sprintf(line, "%d numbers, %d is the last", list.count, list.items[list.count - 1]);
	printf("%s: %s\n", title, line);

	freemem(line, 32);
	freemem(title, 16);
	freemem(list.items, list.room * sizeof(int32));
	sleepms(2);			/* The console has to send it	*/
	return OK;
}
