/* spawn.c - xspawn, and the locks of the C library */

/* The library asks for a lock ahead of malloc and of each use of a stream.  All are one lock,	*/
/*   which a process may take again that has it.  Before the first xspawn there is nobody to	*/
/*   wait for.  Each process counts beside its errno how often it has the lock, so it looks at	*/
/*   nothing that another one stores.  One that is killed inside the library keeps it for ever.	*/

#include <malloc.h>
#include <stdlib.h>
#include <picotls.h>
#include <sys/lock.h>
#include "xcalls.h"

struct	spawned	{
	void	(*f)(uint32, uint32);	/* What the process does	*/
	uint32	x, y;			/* Its arguments		*/
	char	tls[] __attribute__((aligned(16)));	/* errno and others */
};

struct	__lock	{ char none; };
struct	__lock	__lock___libc_recursive_mutex;

static	sid32	sem = SYSERR;		/* Made by the first xspawn	*/
static	_Thread_local int depth;	/* How often this process has it */

/*------------------------------------------------------------------------
 *  acquire, release  -  Take the lock, and give it back
 *------------------------------------------------------------------------
 */
static	void	acquire(void)
{
	if (depth == 0 && sem != SYSERR) {
		xwait(sem);
	}
	depth++;
}

static	void	release(void)
{
	if (--depth == 0 && sem != SYSERR) {
		xsignal(sem);
	}
}

/* The names by which the library knows them */

void	__retarget_lock_acquire(_LOCK_T l) { (void)l; acquire(); }
void	__retarget_lock_release(_LOCK_T l) { (void)l; release(); }
void	__retarget_lock_acquire_recursive(_LOCK_T l) { (void)l; acquire(); }
void	__retarget_lock_release_recursive(_LOCK_T l) { (void)l; release(); }
void	__retarget_lock_init(_LOCK_T *l) { *l = 0; }
void	__retarget_lock_init_recursive(_LOCK_T *l) { *l = 0; }
void	__retarget_lock_close(_LOCK_T l) { (void)l; }
void	__retarget_lock_close_recursive(_LOCK_T l) { (void)l; }

/*------------------------------------------------------------------------
 *  begin  -  What a spawned process does first and last
 *------------------------------------------------------------------------
 */
static	void	begin(struct spawned *s)
{
	__asm__ volatile ("mv tp, %0" : : "r"(s->tls) : "memory");
	s->f(s->x, s->y);
	free(s);
	xexit();
}

/*------------------------------------------------------------------------
 *  xspawn  -  Start a process that uses the library; answers its number, or
 *		SYSERR if there is no memory or create is refused
 *------------------------------------------------------------------------
 */
pid32	xspawn(
	  void		(*f)(uint32, uint32),	/* What it does		*/
	  uint32	size,		/* Bytes of its stack		*/
	  pri16		priority,	/* Its priority			*/
	  const char	*name,		/* Its name			*/
	  uint32	x,		/* Its arguments		*/
	  uint32	y
	)
{
	struct	spawned	*s = memalign(16, sizeof(*s) + _tls_size());
	pid32	pid;

	if (s == 0) {
		return SYSERR;
	}
	if (sem == SYSERR) {
		sem = semcreate(1);
	}
	s->f = f;
	s->x = x;
	s->y = y;
	_init_tls(s->tls);
	pid = sem == SYSERR ? SYSERR : create(begin, size, priority, name, (uint32)s, 0);
	if (pid == SYSERR || resume(pid) == SYSERR) {
		free(s);
		return SYSERR;
	}
	return pid;
}
