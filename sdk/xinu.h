/* xinu.h - the kernel's calls, constants and devices, for programs in C */

/* The calls are those of docs/CALLS.md, by the names and, mostly, the types of the book.	*/
/*   OK is 0 here; create takes exactly two arguments for the new process, control one;		*/
/*   ptdelete and ptreset take a number in place of a function; clktime is a call; and the	*/
/*   console's control functions have other numbers.						*/
/*												*/
/* A refused call answers SYSERR; one that is refused immediately changes nothing else.  A	*/
/*   comment says when a call is refused, and whether it may wait: a caller that waits lets	*/
/*   other processes run.									*/

#ifndef XINU_H
#define XINU_H

/* Types */

typedef unsigned char	byte;
typedef short		int16;
typedef unsigned short	uint16;
typedef int		int32;
typedef unsigned int	uint32;
typedef int32		status;		/* OK or SYSERR					*/
typedef int32		syscall;	/* what a call answers				*/
typedef int32		devcall;	/* what a call on a device answers		*/
typedef int32		pid32;		/* number of a process				*/
typedef int32		sid32;		/* number of a semaphore			*/
typedef int32		did32;		/* number of a device				*/
typedef int32		bpid32;		/* number of a buffer pool			*/
typedef int32		ptid32;		/* number of a port				*/
typedef int16		pri16;		/* priority of a process			*/
typedef uint32		umsg32;		/* a message					*/
typedef int32		process;	/* what the first function of a process returns */

/* Answers: of a call that has nothing else to tell, of one that was refused, of a read at	*/
/*   the end of the input, and of a wait whose time is over					*/

#define	OK		0		/* in the book 1				*/
#define	SYSERR		(-1)
#define	EOF		(-2)
#define	TIMEOUT		(-3)

#define	NULL		0
#define	TRUE		1
#define	FALSE		0

/* Limits of the kernel */

#define	NPROC		64		/* processes, the null process included		*/
#define	NSEM		128		/* semaphores, of which the kernel has four	*/
#define	NULLPROC	0		/* the null process				*/
#define	QUANTUM		2		/* ticks before the equals have their turn	*/
#define	MINSTK		400		/* bytes of the smallest stack			*/
#define	PNMLEN		16		/* bytes of a process's name, with its zero	*/
#define	MAXPRIO		32767
#define	CLKTICKS	1000		/* ticks of a second				*/
#define	RAMSIZE		0x100000	/* bytes of RAM, from address 0			*/
#define	NBPOOLS		20		/* buffer pools					*/
#define	BP_MINB		8		/* bytes of the smallest buffer			*/
#define	BP_MAXB		8192		/* bytes of the greatest			*/
#define	BP_MAXN		2048		/* buffers of a pool				*/
#define	NPORTS		30		/* ports					*/
#define	PT_MSGS		100		/* messages in all ports together		*/
#define	PT_DROP		0		/* ptdelete, ptreset: messages are dropped	*/
#define	PT_FREEBUF	1		/*   or given back as buffers			*/

/* Devices */

#define	CONSOLE		0
#define	NAMESPACE	1		/* offers open alone				*/
#define	DISK0		2		/* the raw disk: read and write move one block	*/
#define	LFILESYS	3		/* the file system: open and control		*/
#define	LFILE0		4		/* files that are open				*/
#define	LFILE1		5
#define	LFILE2		6
#define	LFILE3		7
#define	LFILE4		8
#define	LFILE5		9
#define	NDEVS		10

#define	DISK_BLKSIZ	512		/* bytes of a block				*/
#define	TY_IBUFLEN	128		/* typed characters that the console holds	*/
#define	TY_OBUFLEN	64		/* bytes that wait to be sent			*/
#define	LF_NAME_LEN	27		/* bytes of a file's name			*/
#define	NM_PRELEN	31		/* bytes of a prefix and of its replacement	*/

/* Control functions of CONSOLE, which answer 0 unless another answer is said */

#define	TC_MODER	1		/* raw mode: no character has a meaning		*/
#define	TC_MODEK	2		/* cbreak mode: characters come one by one	*/
#define	TC_MODEC	3		/* cooked mode: lines, which can be edited	*/
#define	TC_ICHARS	4		/* answers how many characters can be taken	*/
#define	TC_ECHO		5		/* what is typed is shown			*/
#define	TC_NOECHO	6		/*   or not					*/

/* Control functions of the disk, the file system and a file */

#define	RD_CTL_BLOCKS	1		/* DISK0: answers how many blocks there are	*/
#define	LF_CTL_DEL	1		/* LFILESYS: deletes the file named at x	*/
#define	LF_CTL_TRUNC	1		/* a file: is empty, position 0			*/
#define	LF_CTL_SIZE	2		/* a file: answers its size in bytes		*/

/* A program that says XINU_IMAGE(30, 8192); once, outside its functions, is loaded with the	*/
/*   priority 30 (1 to 32767) and a stack of 8192 bytes; without it with 20 and 4096.  It is an	*/
/*   ELF note of type 1 with the name XINU.							*/

struct	xinunote {
	uint32	namelen, desclen, type;
	char	name[8];
	uint32	priority, stack;
};

#define	XINU_IMAGE(priority, stack)						\
	const struct xinunote xinu_note						\
	__attribute__((section(".note.xinu"), aligned(4), used)) =		\
	{ 5, 8, 1, "XINU", (priority), (stack) }

/* xcall - make call n: its number is in a7, its arguments are in a0 to a5, the answer is in a0 */

static inline int32 xcall(uint32 n, uint32 a, uint32 b, uint32 c, uint32 d, uint32 e, uint32 f)
{
	register uint32 a0 __asm__("a0") = a;
	register uint32 a1 __asm__("a1") = b;
	register uint32 a2 __asm__("a2") = c;
	register uint32 a3 __asm__("a3") = d;
	register uint32 a4 __asm__("a4") = e;
	register uint32 a5 __asm__("a5") = f;
	register uint32 a7 __asm__("a7") = n;

	__asm__ volatile ("ecall" : "+r"(a0)
		: "r"(a1), "r"(a2), "r"(a3), "r"(a4), "r"(a5), "r"(a7) : "memory");
	return a0;
}

static inline int32 xcall0(uint32 n)
{
	register uint32 a0 __asm__("a0");
	register uint32 a7 __asm__("a7") = n;

	__asm__ volatile ("ecall" : "=r"(a0) : "r"(a7) : "memory");
	return a0;
}

static inline int32 xcall1(uint32 n, uint32 a)
{
	register uint32 a0 __asm__("a0") = a;
	register uint32 a7 __asm__("a7") = n;

	__asm__ volatile ("ecall" : "+r"(a0) : "r"(a7) : "memory");
	return a0;
}

static inline int32 xcall2(uint32 n, uint32 a, uint32 b)
{
	register uint32 a0 __asm__("a0") = a;
	register uint32 a1 __asm__("a1") = b;
	register uint32 a7 __asm__("a7") = n;

	__asm__ volatile ("ecall" : "+r"(a0) : "r"(a1), "r"(a7) : "memory");
	return a0;
}

static inline int32 xcall3(uint32 n, uint32 a, uint32 b, uint32 c)
{
	register uint32 a0 __asm__("a0") = a;
	register uint32 a1 __asm__("a1") = b;
	register uint32 a2 __asm__("a2") = c;
	register uint32 a7 __asm__("a7") = n;

	__asm__ volatile ("ecall" : "+r"(a0) : "r"(a1), "r"(a2), "r"(a7) : "memory");
	return a0;
}

/* Processes */

/* getpid - the caller's number; never refused, doesn't wait */
static inline pid32 getpid(void)
	{ return xcall0(1); }

/* create - a new process, suspended: it begins in function entry, with x and y as arguments,	*/
/*   on a stack of at least size bytes (MINSTK or more), and exits when entry returns.  The	*/
/*   name's first 15 bytes count.  Answers its number.  Refused if the priority is below 1, no	*/
/*   number is free, the heap has no such stack, or 16 bytes at name leave RAM.  Doesn't wait	*/
static inline pid32 create(void *entry, uint32 size, pri16 priority, const char *name, uint32 x, uint32 y)
	{ return xcall(2, (uint32)entry, size, priority, (uint32)name, x, y); }

/* resume - a suspended process becomes ready; answers its priority.  Refused if it isn't	*/
/*   suspended.  Doesn't wait, but the caller stops running if p comes before it		*/
static inline pri16 resume(pid32 p)
	{ return xcall1(3, p); }

/* suspend - a ready or running process stops until it is resumed; answers its priority.	*/
/*   Refused if p is 0 or neither ready nor running.  Waits if p is the caller			*/
static inline syscall suspend(pid32 p)
	{ return xcall1(4, p); }

/* kill - process p dies, whatever it is doing; its parent is sent its number.  Refused if p is	*/
/*   0 or free.  Doesn't wait, and doesn't return to a caller that kills itself			*/
static inline syscall kill(pid32 p)
	{ return xcall1(5, p); }

/* yield - ready processes of at least the caller's priority have their turn; never refused	*/
static inline syscall yield(void)
	{ return xcall0(6); }

/* chprio - p gets a priority, which may be any; answers the one before.  Refused if p is free.	*/
/*   Doesn't wait, but who is first now runs							*/
static inline pri16 chprio(pid32 p, pri16 priority)
	{ return xcall2(7, p, priority); }

/* getprio - the priority of p; refused if p is free, doesn't wait */
static inline syscall getprio(pid32 p)
	{ return xcall1(8, p); }

/* exit - the caller dies; never returns */
static inline __attribute__((noreturn)) void exit(void)
	{ xcall0(9); __builtin_unreachable(); }

/* Memory */

/* getmem - n bytes of the heap, in cells of 8: the lowest that are free in a row; answers	*/
/*   their address.  Refused if n is 0 or there are none.  Doesn't wait				*/
static inline char *getmem(uint32 n)
	{ return (char *)xcall1(10, n); }

/* freemem - n bytes at a go back.  Refused if n is 0, a isn't a multiple of 8, or a cell is	*/
/*   free or not the heap's; who took them isn't asked.  Doesn't wait				*/
static inline syscall freemem(void *a, uint32 n)
	{ return xcall2(11, (uint32)a, n); }

/* getstk - as getmem, but the highest, and the address of their highest word */
static inline char *getstk(uint32 n)
	{ return (char *)xcall1(12, n); }

/* freestk - gives back what getstk gave; refused as freemem of the lowest address */
static inline syscall freestk(void *a, uint32 n)
	{ return xcall2(13, (uint32)a, n); }

/* Semaphores: a process may name those only that processes made */

/* semcreate - a semaphore with count n; refused if n is negative or all are in use */
static inline sid32 semcreate(int32 n)
	{ return xcall1(14, n); }

/* semdelete - s is free, and the calls of all who wait on it are refused; refused if s isn't	*/
/*   a process's.  Doesn't wait									*/
static inline syscall semdelete(sid32 s)
	{ return xcall1(15, s); }

/* semreset - all who wait on s go on, and its count is n; refused as semdelete, or if n is	*/
/*   negative.  Doesn't wait									*/
static inline syscall semreset(sid32 s, int32 n)
	{ return xcall2(16, s, n); }

/* semcount - the count: tokens, or if negative how many wait; refused as semdelete */
static inline syscall semcount(sid32 s)
	{ return xcall1(17, s); }

/* wait - takes a token of s, or waits for one; refused as semdelete, and if s is deleted while	*/
/*   the caller waits										*/
static inline syscall wait(sid32 s)
	{ return xcall1(18, s); }

/* signal - releases who waits on s longest, or adds a token; refused as semdelete, or if the	*/
/*   count is 2147483647.  Doesn't wait								*/
static inline syscall signal(sid32 s)
	{ return xcall1(19, s); }

/* signaln - n signals at once; refused as signal, if n is negative, or if the count would	*/
/*   pass 2147483647.  Doesn't wait								*/
static inline syscall signaln(sid32 s, int32 n)
	{ return xcall2(20, s, n); }

/* Messages: a process holds at most one */

/* send - p holds m; refused if p is free or holds one already.  Doesn't wait */
static inline syscall send(pid32 p, umsg32 m)
	{ return xcall2(21, p, m); }

/* receive - takes the caller's message, or waits for one; never refused */
static inline umsg32 receive(void)
	{ return xcall0(22); }

/* recvclr - takes the caller's message, or answers 0; never refused, doesn't wait */
static inline umsg32 recvclr(void)
	{ return xcall0(23); }

/* recvtime - as receive, but answers TIMEOUT if none comes in t ticks, at least 1; refused if	*/
/*   t is negative										*/
static inline umsg32 recvtime(int32 t)
	{ return xcall1(24, t); }

/* The clock: a thousand ticks are a second */

/* sleep - the caller sleeps t seconds; refused if t is negative or above 2147483 */
static inline syscall sleep(int32 t)
	{ return xcall1(25, t); }

/* sleepms - the caller sleeps t ticks, and yields for 0; refused if t is negative */
static inline syscall sleepms(int32 t)
	{ return xcall1(26, t); }

/* clktime - the seconds since the start; never refused, doesn't wait */
static inline uint32 clktime(void)
	{ return xcall0(27); }

/* Buffer pools */

/* mkbufpool - a pool of n buffers of size bytes, rounded up to a multiple of 4; answers its	*/
/*   number.  Refused if size isn't 8 to 8192 or n isn't 1 to 2048, 20 pools are made, or there	*/
/*   is no semaphore or no memory for it; a pool is never given up.  Doesn't wait		*/
static inline bpid32 mkbufpool(uint32 size, int32 n)
	{ return xcall2(28, size, n); }

/* getbuf - the buffer of pool i that was given back last, waited for; refused if i isn't made */
static inline char *getbuf(bpid32 i)
	{ return (char *)xcall1(29, i); }

/* freebuf - the buffer at a goes back to its pool; refused if no buffer there is taken.	*/
/*   Doesn't wait										*/
static inline syscall freebuf(void *a)
	{ return xcall1(30, (uint32)a); }

/* Ports: queues of messages.  All together hold at most 100; one more ends the run in a panic */

/* ptcreate - a port with room for n messages; answers its number.  Refused if n is negative,	*/
/*   30 are in use, or two semaphores aren't free.  Doesn't wait				*/
static inline ptid32 ptcreate(int32 n)
	{ return xcall1(31, n); }

/* ptdelete - port q is free, and who waits in it is refused; its messages are dropped (d is	*/
/*   PT_DROP) or given back as buffers (PT_FREEBUF).  Refused if q isn't in use or d is		*/
/*   another.  Doesn't wait									*/
static inline syscall ptdelete(ptid32 q, int32 d)
	{ return xcall2(32, q, d); }

/* ptreset - as ptdelete, but q is then as it was made */
static inline syscall ptreset(ptid32 q, int32 d)
	{ return xcall2(33, q, d); }

/* ptsend - message m goes into port q, after those that are there; waits for room.  Refused if	*/
/*   q isn't in use, or was reset or deleted while the caller waited				*/
static inline syscall ptsend(ptid32 q, umsg32 m)
	{ return xcall2(34, q, m); }

/* ptrecv - takes the first message of port q, waited for; refused as ptsend */
static inline umsg32 ptrecv(ptid32 q)
	{ return xcall1(35, q); }

/* Devices: a call is refused if there is no such device or it doesn't offer the call.  On the	*/
/*   disk, and on files unless they are done at once, the caller waits for the disk		*/

/* open - CONSOLE and DISK0 answer their number.  LFILESYS opens the file name, by the letters	*/
/*   of mode (r reads, w writes, o the file is old, n it is new), and NAMESPACE opens what name	*/
/*   is mounted to; each answers the device that has it open.  Refused if a text isn't there, or	*/
/*   if there is no such file or name, the file is open already, six are, or the mode refuses	*/
static inline devcall open(did32 dev, const char *name, const char *mode)
	{ return xcall3(36, dev, (uint32)name, (uint32)mode); }

/* close - a file is closed; on CONSOLE and DISK0 nothing.  Refused if no file is open there */
static inline devcall close(did32 dev)
	{ return xcall1(37, dev); }

/* read - up to n bytes come to buf; answers how many, or EOF at the end.  CONSOLE waits: in	*/
/*   cooked mode for a line, else for n characters (for n = 0 it takes what is there).  On	*/
/*   DISK0 n is the number of a block, which comes to buf; answers OK.  Refused if n is		*/
/*   negative or no such block, bytes at buf leave RAM, or the disk fails			*/
static inline devcall read(did32 dev, void *buf, uint32 n)
	{ return xcall3(38, dev, (uint32)buf, n); }

/* write - n bytes at buf are put; answers how many.  CONSOLE waits for room, byte by byte.  On	*/
/*   DISK0 the 512 bytes at buf are written as block n; answers OK.  Refused as read; of a file	*/
/*   also if the disk has room for no byte							*/
static inline devcall write(did32 dev, const void *buf, uint32 n)
	{ return xcall3(39, dev, (uint32)buf, n); }

/* getc - one byte, waited for, or EOF at the end */
static inline devcall getc(did32 dev)
	{ return xcall1(40, dev); }

/* putc - puts one byte; CONSOLE waits for room, and outside raw mode puts a return before a	*/
/*   newline											*/
static inline devcall putc(did32 dev, char c)
	{ return xcall2(41, dev, (byte)c); }

/* seek - the next byte that a file reads or writes is byte n; refused if n is above its size */
static inline devcall seek(did32 dev, uint32 n)
	{ return xcall2(42, dev, n); }

/* control - control function f of a device, with argument x; refused if it has none */
static inline devcall control(did32 dev, int32 f, int32 x)
	{ return xcall3(43, dev, f, x); }

/* mount - names that begin with prefix are replacement and their rest on device dev; the first	*/
/*   prefix that fits acts.  Refused if there is no such device, a text has more than 31 bytes,	*/
/*   or 40 are mounted.  Doesn't wait								*/
static inline syscall mount(const char *prefix, const char *replacement, did32 dev)
	{ return xcall3(44, (uint32)prefix, (uint32)replacement, dev); }

/* Functions of xinu.c */

extern	void	*memcpy(void *, const void *, uint32);
extern	void	*memmove(void *, const void *, uint32);
extern	void	*memset(void *, int32, uint32);
extern	int32	memcmp(const void *, const void *, uint32);
extern	uint32	strlen(const char *);
extern	int32	strcmp(const char *, const char *);
extern	char	*strncpy(char *, const char *, uint32);
extern	int32	atoi(const char *);
extern	int32	sprintf(char *, const char *, ...) __attribute__((format(printf, 2, 3)));
extern	status	puts(const char *);
extern	status	fprintf(did32, const char *, ...) __attribute__((format(printf, 2, 3)));

#define	printf(...)	fprintf(CONSOLE, __VA_ARGS__)

#endif
