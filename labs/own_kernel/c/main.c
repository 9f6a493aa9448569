/* main.c - a kernel to begin with: some processes, the calls getpid, exit and putc, the clock, traps and the console's output
 *
 * usage: kernel SCHEDULE IMAGE ..
 *
 * It prints the transcript of the run (docs/FORMATS.md), which `xinu_run check` judges. What it doesn't have yet stops it with status 1. */
#include <stdio.h>
#include <stdlib.h>
#include <string.h>
#include "kernel.h"

/* not_yet - stop at something that the kernel doesn't have yet */
_Noreturn void not_yet(const char *what, long number)
{
    fprintf(stderr, "not yet: %s %ld\n", what, number);
    exit(1);
}

/* Completions of the disks: nobody asked for any. */
static void complete(void)
{
}

/* happen - an event happens so often; the answer is whether the run goes on */
static bool happen(void (*event)(void), long times)
{
    while (prcount > 0 && times-- > 0)
        event();
    return prcount > 0;
}

static bool happen_in_rounds(long times)
{
    while (times-- > 0)
        if (!happen(step, 1000) || !happen(transmit, 64) || !happen(tick, 1))
            return false;
    return true;
}

/* take_line - take a line of the schedule, such as `step 100`; the answer is whether the run goes on */
static bool take_line(const char *line, long number)
{
    static const struct {
        const char *word;
        void (*event)(void);
    } events[] = {{"step", step}, {"tick", tick}, {"tx", transmit}, {"disk0", complete}, {"disk1", complete}, {"dump", print_tables}};
    char word[8] = "";
    long times = 1;
    if (sscanf(line, "%7s %ld", word, &times) < 1 || word[0] == '#')
        return true;
    if (strcmp(word, "round") == 0)
        return happen_in_rounds(times);
    for (size_t k = 0; k < sizeof events / sizeof events[0]; k++)
        if (strcmp(word, events[k].word) == 0)
            return happen(events[k].event, times);
    not_yet("line", number);
}

int main(int argc, char *argv[])
{
    char line[1024];
    long number = 1;
    FILE *schedule = argc > 2 && argc <= 10 ? fopen(argv[1], "r") : NULL;
    if (schedule == NULL) {
        fputs("usage: kernel SCHEDULE IMAGE .., with one to eight images\n", stderr);
        return 2;
    }
    boot(argc - 2, argv + 2);
    while (fgets(line, sizeof line, schedule) != NULL && take_line(line, number))
        number++;
    fclose(schedule);
    print_tables();
    puts(prcount > 0 ? "end schedule" : "end done");
    return 0;
}
