/* stats.c - main, number_of, keep, read_back */

#include <errno.h>
#include <math.h>
#include <stdio.h>
#include <stdlib.h>
#include <string.h>

#define	LINELEN	80			/* The longest line that is read	*/

static	double	*numbers;		/* Those that were typed		*/
static	size_t	count;			/* How many there are			*/
static	size_t	room;			/* For how many there is memory		*/

/*------------------------------------------------------------------------
 *  number_of  -  Find the number that a line is; returns 0 if it is one, or
 *		else why it isn't
 *------------------------------------------------------------------------
 */
static	int	number_of(
	  const char	*line,		/* What was typed		*/
	  double	*number		/* Gets the number		*/
	)
{
	char	*end;

	errno = 0;
	*number = strtod(line, &end);
	if (end == line || *end != '\0') {
		return EINVAL;
	}
	return errno;
}

/*------------------------------------------------------------------------
 *  keep  -  Add a number to those in memory, and to the end of a file
 *------------------------------------------------------------------------
 */
static	void	keep(
	  double	number,
	  const char	*name		/* The file's name		*/
	)
{
	FILE	*file = fopen(name, "a");

	if (count == room) {
		room = room == 0 ? 2 : 2 * room;
		numbers = realloc(numbers, room * sizeof(*numbers));
	}
	if (file == NULL || numbers == NULL) {
		perror(name);
		exit(2);
	}
	numbers[count++] = number;
	fprintf(file, "%.3f\n", number);
	fclose(file);
}

/*------------------------------------------------------------------------
 *  read_back  -  Show what the file has from its second line on
 *------------------------------------------------------------------------
 */
static	void	read_back(
	  const char	*name		/* The file's name		*/
	)
{
	char	line[LINELEN];
	FILE	*file = fopen(name, "r");

	if (file == NULL) {
		perror(name);
		exit(2);
	}
	if (fopen(name, "r") == NULL) {
		perror("a file that is open");
	}
	fseek(file, 0, SEEK_END);
	printf("%s has %ld bytes\n", name, ftell(file));
	rewind(file);
	fgets(line, sizeof(line), file);
	fseek(file, strlen(line), SEEK_SET);
	while (fgets(line, sizeof(line), file) != NULL) {
		printf("  %s", line);
	}
	if (fseek(file, 1, SEEK_END) != 0) {
		perror("beyond the end");
	}
	fclose(file);
}

/*------------------------------------------------------------------------
 *  main  -  Read numbers until the end of the input, and say what they are
 *		like; the status is 1 if a line wasn't a number
 *------------------------------------------------------------------------
 */
int	main(void)
{
	char	line[LINELEN];
	double	number, sum = 0, squares = 0;
	int	why, status = EXIT_SUCCESS;

	while (fgets(line, sizeof(line), stdin) != NULL) {
		line[strcspn(line, "\n")] = '\0';
		why = number_of(line, &number);
		if (why != 0) {
			fprintf(stderr, "%s: %s\n", line, strerror(why));
			status = EXIT_FAILURE;
			continue;
		}
		keep(number, "numbers");
		sum += number;
		squares += number * number;
	}
	if (count > 0) {
		printf("%zu numbers, mean %g, deviation %g\n", count, sum / count,
		       sqrt(squares / count - sum / count * (sum / count)));
		read_back("numbers");
	}
	if (remove("none") != 0) {
		perror("none");
	}
	free(numbers);
	return status;
}
