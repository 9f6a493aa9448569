/* linux.c - the C library's system calls by those of Linux, for the programs that qemu-riscv32 runs beside the machine.
   The clock stands still, as it does on the machine in a run of less than a second. */

#include <errno.h>
#include <fcntl.h>
#include <stdio.h>
#include <stdio-bufio.h>
#include <stdlib.h>
#include <picotls.h>
#include <string.h>
#include <sys/stat.h>
#include <sys/time.h>
#include <sys/times.h>
#include <unistd.h>

enum { UNLINKAT = 35, OPENAT = 56, CLOSE = 57, LLSEEK = 62, READ = 63, WRITE = 64, EXIT = 93, KILL = 129, GETPID = 172 };
enum { AT_CWD = -100, LINUX_CREAT = 0100, LINUX_EXCL = 0200, LINUX_TRUNC = 01000, LINUX_APPEND = 02000 };

/* linux_call - a call of Linux; errors are negative answers, whose numbers C libraries share up to 34 */
static long linux_call(long number, long a, long b, long c, long d, long e)
{
	register long a0 __asm__("a0") = a, a1 __asm__("a1") = b, a2 __asm__("a2") = c;
	register long a3 __asm__("a3") = d, a4 __asm__("a4") = e, a7 __asm__("a7") = number;

	__asm__ volatile ("ecall" : "+r"(a0) : "r"(a1), "r"(a2), "r"(a3), "r"(a4), "r"(a7) : "memory");
	if (a0 < 0 && a0 > -4096) {
		errno = -a0;
		return -1;
	}
	return a0;
}

int open(const char *name, int flags, ...)
{
	int there = flags & O_ACCMODE;

	there |= (flags & O_CREAT ? LINUX_CREAT : 0) | (flags & O_EXCL ? LINUX_EXCL : 0);
	there |= (flags & O_TRUNC ? LINUX_TRUNC : 0) | (flags & O_APPEND ? LINUX_APPEND : 0);
	return linux_call(OPENAT, AT_CWD, (long)name, there, 0644, 0);
}

int close(int fd) { return linux_call(CLOSE, fd, 0, 0, 0, 0); }
ssize_t read(int fd, void *bytes, size_t count) { return linux_call(READ, fd, (long)bytes, count, 0, 0); }
ssize_t write(int fd, const void *bytes, size_t count) { return linux_call(WRITE, fd, (long)bytes, count, 0, 0); }
int unlink(const char *name) { return linux_call(UNLINKAT, AT_CWD, (long)name, 0, 0, 0); }
int isatty(int fd) { return fd <= STDERR_FILENO; }
pid_t getpid(void) { return linux_call(GETPID, 0, 0, 0, 0, 0); }
int kill(pid_t pid, int number) { return linux_call(KILL, pid, number, 0, 0, 0); }

off_t lseek(int fd, off_t offset, int whence)
{
	long long at = offset, position;

	return linux_call(LLSEEK, fd, at >> 32, (long)at, (long)&position, whence) == -1 ? -1 : (off_t)position;
}

int rename(const char *old, const char *new)
{
	(void)old, (void)new;
	errno = ENOSYS;
	return -1;
}

int fstat(int fd, struct stat *s)
{
	off_t here = lseek(fd, 0, SEEK_CUR);

	memset(s, 0, sizeof(*s));
	s->st_mode = isatty(fd) ? S_IFCHR | 0666 : S_IFREG | 0666;
	s->st_blksize = 512;
	if (here >= 0) {
		s->st_size = lseek(fd, 0, SEEK_END);
		lseek(fd, here, SEEK_SET);
	}
	return 0;
}

int stat(const char *name, struct stat *s)
{
	int fd = open(name, O_RDONLY);

	return fd < 0 ? -1 : (fstat(fd, s), close(fd));
}

int access(const char *name, int mode)
{
	struct stat s;

	(void)mode;
	return stat(name, &s);
}

int gettimeofday(struct timeval *now, void *zone)
{
	(void)zone;
	memset(now, 0, sizeof(*now));
	return 0;
}

clock_t times(struct tms *t)
{
	memset(t, 0, sizeof(*t));
	return 0;
}

#define STREAM(fd, buffer, rw, flags) FDEV_SETUP_BUFIO(fd, buffer, sizeof(buffer), read, write, lseek, close, rw, flags)

static char inbuf[128], outbuf[512], errbuf[80];
static struct __file_bufio in = STREAM(STDIN_FILENO, inbuf, __SRD, 0);
static struct __file_bufio out = STREAM(STDOUT_FILENO, outbuf, __SWR, __BLBF);
static struct __file_bufio err = STREAM(STDERR_FILENO, errbuf, __SWR, __BLBF);
FILE *const stdin = &in.xfile.cfile.file;
FILE *const stdout = &out.xfile.cfile.file;
FILE *const stderr = &err.xfile.cfile.file;

extern int main(int, char **, char **);
extern void __libc_init_array(void);
extern char __tls_main[];

void _exit(int status)
{
	fflush(stdout);
	fflush(stderr);
	linux_call(EXIT, status & 255, 0, 0, 0, 0);
	__builtin_unreachable();
}

/* begin - what the first function does, which has found argc and argv on the stack */
void begin(long *stack)
{
	static char *environment[] = { 0 };

	_init_tls(__tls_main);
	__libc_init_array();
	exit(main(stack[0], (char **)(stack + 1), environment));
}

__asm__(".section .text.start, \"ax\"\n\t.globl _start\n_start:\n\tla tp, __tls_main\n\tmv a0, sp\n\tj begin\n\t.text\n");
