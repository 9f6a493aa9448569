/* kernel.h - what the files of this kernel share */
#ifndef KERNEL_H
#define KERNEL_H
#include <stdbool.h>
#include <stdint.h>

#ifndef MISTAKE
#define MISTAKE 0 /* which of the wrong lines is compiled; 0 for none */
#endif

#define INITRET 0xFFFFFFFCu /* where the first function of a process returns to */
enum {
    RAM_SIZE = 0x100000,
    NPROC = 64,
    NCALLS = 44, /* numbers of calls: 1 to 44 */
    QUANTUM = 2,
    OBUFLEN = 64, /* bytes of output that wait to be sent */
    NOBODY = -1
};

enum state { FREE, CURRENT, READY };
struct process {
    enum state state;
    int priority, parent;
    bool has_message;
    int32_t message;
    char name[16];
    uint32_t stack, stack_size; /* the lowest address of its stack, and how many bytes it has */
    uint32_t x[32], pc;
    int next; /* who comes after it in the ready list, or NOBODY */
};

/* How a step ends: the process goes on, makes a call, or is trapped. */
enum ending { GOES_ON, ECALL, FETCH, ILLEGAL, BREAK, TARGET, LOAD, STORE };

extern uint8_t ram[RAM_SIZE];
extern struct process proctab[NPROC];
extern int currpid, prcount; /* the current process; how many there are beside the null process */
extern int ticks, quantum;
extern int readylist; /* the first of the ready list, or NOBODY */
extern uint32_t heap_low; /* the heap: from here to the end of RAM */

enum ending execute(struct process *p);
void ready(int pid);
void resched(void);
void die(void);
void boot(int count, char *const paths[]);
void call(struct process *caller);
void step(void);
void tick(void);
bool put_output(uint8_t letter);
int output_length(void);
void transmit(void);
void print_tables(void);
_Noreturn void not_yet(const char *what, long number);
#endif
