/* start.S - where a program with a C library begins */

/* tp is 0 in a new process, and the library keeps errno and its other thread-local variables	*/
/*   at tp: the first process has them at __tls_main, and one that xspawn makes has its own.	*/

	.section .text.start, "ax"
	.globl	_start
_start:
	la	tp, __tls_main
	j	__xinu_main
