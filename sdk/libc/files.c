/* files.c - open, close, read, write, lseek, fstat, stat, access, unlink, rename, isatty */

/* 0, 1 and 2 are the console; 4 to 9 are the devices on which the kernel has files open.  No	*/
/*   call tells a file's position or name, so both are kept here.  A refused call says only	*/
/*   SYSERR: what errno is set to comes from what this program has open.			*/

#include <errno.h>
#include <fcntl.h>
#include <stdio.h>
#include <string.h>
#include <sys/stat.h>
#include <unistd.h>
#include "xcalls.h"

#define	NAMELEN	27			/* The longest name of a file	*/

static	struct	{
	char	name[NAMELEN + 1];	/* Empty if it isn't open	*/
	off_t	position;
	int	flags;			/* As they were given to open	*/
} files[NDEVS];

/*------------------------------------------------------------------------
 *  fail  -  Say why a function fails
 *------------------------------------------------------------------------
 */
static	int	fail(int error)
{
	errno = error;
	return -1;
}

/*------------------------------------------------------------------------
 *  is_console, is_file  -  Tell what a descriptor is; it may be neither
 *------------------------------------------------------------------------
 */
static	int	is_console(int fd)
{
	return fd >= STDIN_FILENO && fd <= STDERR_FILENO;
}

static	int	is_file(int fd)
{
	return fd >= LFILE0 && fd < NDEVS && files[fd].name[0] != '\0';
}

/*------------------------------------------------------------------------
 *  device_of  -  Find the device on which this program has a file open
 *------------------------------------------------------------------------
 */
static	int	device_of(const char *name)
{
	int	fd;

	for (fd = LFILE0; fd < NDEVS; fd++) {
		if (is_file(fd) && strcmp(files[fd].name, name) == 0) {
			return fd;
		}
	}
	return SYSERR;
}

/*------------------------------------------------------------------------
 *  why_not_open  -  Say why the kernel refused to open a file
 *------------------------------------------------------------------------
 */
static	int	why_not_open(
	  const char	*name,		/* The file's name		*/
	  int		flags		/* As open was given them	*/
	)
{
	int	fd, count = 0;

	for (fd = LFILE0; fd < NDEVS; fd++) {
		count += is_file(fd);
	}
	if (name[0] == '\0') {
		return ENOENT;
	} else if (device_of(name) != SYSERR) {
		return EBUSY;
	} else if (count == NDEVS - LFILE0) {
		return EMFILE;
	} else if (!(flags & O_CREAT)) {
		return ENOENT;
	} else if (flags & O_EXCL && (fd = xopen(LFILESYS, name, "ro")) != SYSERR) {
		xclose(fd);
		return EEXIST;
	}
	return ENOSPC;
}

/*------------------------------------------------------------------------
 *  open  -  Open a file of the disk with files
 *------------------------------------------------------------------------
 */
int	open(
	  const char	*name,		/* The file's name		*/
	  int		flags,		/* O_RDONLY and others		*/
	  ...				/* Permissions: there are none	*/
	)
{
	static const char *const modes[][3] = {
		[O_RDONLY] = { "ro", "r", "rn" },
		[O_WRONLY] = { "wo", "w", "wn" },
		[O_RDWR] = { "rwo", "rw", "rwn" },
	};
	int	access = flags & O_ACCMODE;
	int	fd;

	if (access > O_RDWR) {
		return fail(EINVAL);
	}
	if (strlen(name) > NAMELEN) {
		return fail(ENAMETOOLONG);
	}
	fd = xopen(LFILESYS, name, modes[access][!(flags & O_CREAT) ? 0 : flags & O_EXCL ? 2 : 1]);
	if (fd == SYSERR) {
		return fail(why_not_open(name, flags));
	}
	if (flags & O_TRUNC && access != O_RDONLY) {
		control(fd, LF_CTL_TRUNC, 0);
	}
	strcpy(files[fd].name, name);
	files[fd].position = 0;
	files[fd].flags = flags;
	return fd;
}

/*------------------------------------------------------------------------
 *  close  -  Close a file; the console stays open
 *------------------------------------------------------------------------
 */
int	close(int fd)
{
	if (is_console(fd)) {
		return 0;
	}
	if (!is_file(fd)) {
		return fail(EBADF);
	}
	files[fd].name[0] = '\0';
	return xclose(fd) == SYSERR ? fail(EIO) : 0;
}

/*------------------------------------------------------------------------
 *  is_in_ram  -  Tell whether all of some bytes are addresses of RAM
 *------------------------------------------------------------------------
 */
static	int	is_in_ram(const void *bytes, size_t count)
{
	return (uint32)bytes < RAMSIZE && count <= RAMSIZE - (uint32)bytes;
}

/*------------------------------------------------------------------------
 *  read  -  Read from a file, or a line from the console: what has been
 *		printed is put first
 *------------------------------------------------------------------------
 */
ssize_t	read(
	  int		fd,		/* Where from			*/
	  void		*bytes,		/* Where to			*/
	  size_t	count		/* At most so many		*/
	)
{
	int	n;

	if (!is_console(fd) && (!is_file(fd) || (files[fd].flags & O_ACCMODE) == O_WRONLY)) {
		return fail(EBADF);
	}
	if (count == 0) {
		return 0;
	}
	if (is_console(fd)) {
		fflush(stdout);
		fflush(stderr);
	}
	n = xread(is_console(fd) ? CONSOLE : fd, bytes, count);
	if (n == XEOF) {
		return 0;
	}
	if (n == SYSERR) {
		return fail(is_in_ram(bytes, count) ? EIO : EFAULT);
	}
	if (is_file(fd)) {
		files[fd].position += n;
	}
	return n;
}

/*------------------------------------------------------------------------
 *  write  -  Write to a file, or to the console
 *------------------------------------------------------------------------
 */
ssize_t	write(
	  int		fd,		/* Where to			*/
	  const void	*bytes,		/* Where from			*/
	  size_t	count		/* How many			*/
	)
{
	int	n;

	if (!is_console(fd) && (!is_file(fd) || (files[fd].flags & O_ACCMODE) == O_RDONLY)) {
		return fail(EBADF);
	}
	if (is_file(fd) && files[fd].flags & O_APPEND) {
		lseek(fd, 0, SEEK_END);
	}
	n = xwrite(is_console(fd) ? CONSOLE : fd, bytes, count);
	if (n == SYSERR) {
		return fail(is_in_ram(bytes, count) ? ENOSPC : EFAULT);
	}
	if (is_file(fd)) {
		files[fd].position += n;
	}
	return n;
}

/*------------------------------------------------------------------------
 *  lseek  -  Set a file's position, which is at most its size
 *------------------------------------------------------------------------
 */
off_t	lseek(
	  int		fd,		/* The file			*/
	  off_t		offset,		/* From where whence says	*/
	  int		whence		/* SEEK_SET and others		*/
	)
{
	if (!is_file(fd)) {
		return fail(is_console(fd) ? ESPIPE : EBADF);
	}
	if (whence == SEEK_CUR) {
		offset += files[fd].position;
	} else if (whence == SEEK_END) {
		offset += control(fd, LF_CTL_SIZE, 0);
	} else if (whence != SEEK_SET) {
		return fail(EINVAL);
	}
	if (offset < 0 || offset > 0x7fffffff || seek(fd, offset) == SYSERR) {
		return fail(EINVAL);
	}
	files[fd].position = offset;
	return offset;
}

/*------------------------------------------------------------------------
 *  fstat, stat, access  -  Tell what is open, what a name is, and whether
 *		it is there
 *------------------------------------------------------------------------
 */
int	fstat(int fd, struct stat *s)
{
	if (!is_console(fd) && !is_file(fd)) {
		return fail(EBADF);
	}
	memset(s, 0, sizeof(*s));
	s->st_mode = is_file(fd) ? S_IFREG | 0666 : S_IFCHR | 0666;
	s->st_blksize = 512;
	s->st_nlink = 1;
	if (is_file(fd)) {
		s->st_size = control(fd, LF_CTL_SIZE, 0);
	}
	return 0;
}

int	stat(const char *name, struct stat *s)
{
	int	fd = device_of(name);

	if (fd != SYSERR) {
		return fstat(fd, s);
	}
	fd = open(name, O_RDONLY);
	if (fd == SYSERR) {
		return -1;
	}
	fstat(fd, s);
	return close(fd);
}

int	access(const char *name, int mode)
{
	struct	stat	s;

	return mode & X_OK ? fail(EACCES) : stat(name, &s);
}

/*------------------------------------------------------------------------
 *  unlink, rename  -  Delete a file that isn't open; the kernel can't give
 *		one another name
 *------------------------------------------------------------------------
 */
int	unlink(const char *name)
{
	if (control(LFILESYS, LF_CTL_DEL, (uint32)name) == SYSERR) {
		return fail(device_of(name) == SYSERR ? ENOENT : EBUSY);
	}
	return 0;
}

int	rename(const char *old, const char *new)
{
	(void)old, (void)new;
	return fail(ENOSYS);
}

/*------------------------------------------------------------------------
 *  isatty  -  Tell whether a descriptor is the console
 *------------------------------------------------------------------------
 */
int	isatty(int fd)
{
	if (!is_console(fd)) {
		fail(is_file(fd) ? ENOTTY : EBADF);
		return 0;
	}
	return 1;
}
