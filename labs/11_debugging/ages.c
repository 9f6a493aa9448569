/* ages.c - main, enter */

/* It should print: ada 36, adelheid 29, kurt 24	*/

#include <xinu.h>

struct	person {
	char	name[8];
	int32	age;
};

struct	person	people[3];

/*------------------------------------------------------------------------
 *  enter  -  Enter a person into the table
 *------------------------------------------------------------------------
 */
void	enter(
	  struct person	*p,		/* Where			*/
	  const char	*name,
	  int32		age
	)
{
	p->age = age;
	sprintf(p->name, "%s", name);
}

/*------------------------------------------------------------------------
 *  main  -  Enter three people, and print the table
 *------------------------------------------------------------------------
 */
process	main(void)
{
	int32	i;

	enter(&people[0], "ada", 36);
	enter(&people[1], "adelheid", 29);
	enter(&people[2], "kurt", 24);
	for (i = 0; i < 3; i++) {
		printf("%s %d%s", people[i].name, people[i].age, i < 2 ? ", " : "\n");
	}
	sleepms(2);			/* The console has to send it	*/
	return OK;
}
