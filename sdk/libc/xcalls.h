/* xcalls.h - the kernel's calls beside the headers of a C library */

/* xinu.h and a C library share thirteen names.  Here those of the kernel have an x ahead:	*/
/*   xgetpid xkill xexit xwait xsignal xsleep xopen xclose xread xwrite xgetc xputc, and XEOF.	*/
/*   All others are as in xinu.h, and memcpy, printf and the like are the library's.		*/

#ifndef XCALLS_H
#define XCALLS_H

#pragma push_macro("EOF")
#pragma push_macro("NULL")
#pragma push_macro("getc")
#pragma push_macro("putc")
#undef	EOF
#undef	NULL
#undef	getc
#undef	putc
#define	getpid	xgetpid
#define	kill	xkill
#define	exit	xexit
#define	wait	xwait
#define	signal	xsignal
#define	sleep	xsleep
#define	open	xopen
#define	close	xclose
#define	read	xread
#define	write	xwrite
#define	getc	xgetc
#define	putc	xputc
#define	fprintf	xfprintf	/* isn't there: the library's is	*/
#include <xinu.h>
#undef	getpid
#undef	kill
#undef	exit
#undef	wait
#undef	signal
#undef	sleep
#undef	open
#undef	close
#undef	read
#undef	write
#undef	getc
#undef	putc
#undef	fprintf
#undef	printf
#undef	EOF
#undef	NULL
#pragma pop_macro("putc")
#pragma pop_macro("getc")
#pragma pop_macro("NULL")
#pragma pop_macro("EOF")

#define	XEOF	(-2)		/* answer of a read at the end of the input */

/* xspawn - as create and resume, for a process that uses the library: it has an errno of its	*/
/*   own, and a lock keeps it out of malloc and of a stream while another process is there	*/

extern	pid32	xspawn(void (*f)(uint32, uint32), uint32 size, pri16 priority, const char *name, uint32 x, uint32 y);

#endif
