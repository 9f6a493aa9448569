/* main.c - the streams, the first function of a process, exit, kill, and the time */

#include <errno.h>
#include <signal.h>
#include <stdio.h>
#include <stdio-bufio.h>
#include <stdlib.h>
#include <picotls.h>
#include <sys/time.h>
#include <sys/times.h>
#include <unistd.h>
#include "xcalls.h"

XINU_IMAGE(PRIORITY, STACK);

#define	STREAM(fd, buffer, rw, flags)						\
	FDEV_SETUP_BUFIO(fd, buffer, sizeof(buffer), read, write, lseek, close, rw, flags)

static	char	inbuf[128], outbuf[512], errbuf[80];

static	struct	__file_bufio in = STREAM(STDIN_FILENO, inbuf, __SRD, 0);
static	struct	__file_bufio out = STREAM(STDOUT_FILENO, outbuf, __SWR, __BLBF);
static	struct	__file_bufio err = STREAM(STDERR_FILENO, errbuf, __SWR, __BLBF);

FILE	*const stdin = &in.xfile.cfile.file;
FILE	*const stdout = &out.xfile.cfile.file;
FILE	*const stderr = &err.xfile.cfile.file;

extern	int	main(int, char **, char **);
extern	void	__libc_init_array(void);
extern	char	__tls_main[];

/*------------------------------------------------------------------------
 *  __xinu_main  -  Make errno and others ready, call the constructors and
 *		main, and exit
 *------------------------------------------------------------------------
 */
void	__xinu_main(void)
{
	static char *args[] = { ARGS, 0 };
	static char *environment[] = { 0 };

	_init_tls(__tls_main);
	__libc_init_array();
	if (!ECHO) {
		control(CONSOLE, TC_NOECHO, 0);
	}
	exit(main(sizeof(args) / sizeof(*args) - 1, args, environment));
}

/*------------------------------------------------------------------------
 *  _exit  -  End the process: the console has time to send what it has,
 *		and a status other than 0 shows as `unknown 1000 + status'
 *------------------------------------------------------------------------
 */
void	_exit(int status)
{
	fflush(stdout);
	fflush(stderr);
	sleepms(2);
	if ((status & 255) != 0) {
		xcall0(1000 + (status & 255));
	}
	xexit();
}

/*------------------------------------------------------------------------
 *  getpid, kill  -  The number of this process, and a process's death; this
 *		one dies by a trap, as abort does
 *------------------------------------------------------------------------
 */
pid_t	getpid(void)
{
	return xgetpid();
}

int	kill(
	  pid_t		pid,		/* The process			*/
	  int		number		/* 0 asks whether it is there	*/
	)
{
	if (number != 0 && pid == xgetpid()) {
		fflush(stderr);
		sleepms(2);
		__asm__ volatile ("ebreak");
	}
	if ((number == 0 ? getprio(pid) : xkill(pid)) == SYSERR) {
		errno = ESRCH;
		return -1;
	}
	return 0;
}

/*------------------------------------------------------------------------
 *  gettimeofday, times  -  Whole seconds since the run began
 *------------------------------------------------------------------------
 */
int	gettimeofday(struct timeval *now, void *zone)
{
	(void)zone;
	now->tv_sec = clktime();
	now->tv_usec = 0;
	return 0;
}

clock_t	times(struct tms *t)
{
	t->tms_utime = clktime() * CLOCKS_PER_SEC;
	t->tms_stime = t->tms_cutime = t->tms_cstime = 0;
	return t->tms_utime;
}

/*------------------------------------------------------------------------
 *  sleep, usleep  -  Let other processes run for so long
 *------------------------------------------------------------------------
 */
unsigned sleep(unsigned seconds)
{
	return xsleep(seconds) == SYSERR ? seconds : 0;
}

int	usleep(useconds_t microseconds)
{
	return sleepms((microseconds + 999) / 1000);
}
