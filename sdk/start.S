/* start.S - where a program begins: what has to be called ahead of main, and main */

/* A process begins with every register 0 but ra, sp, a0 and a1.  ra is INITRET, the address	*/
/*   whose execution is exit, so when main returns the process exits.  Variables without a	*/
/*   value are zero already, and gp and tp stay 0: no variable is addressed by them.		*/

	.section .text.start, "ax"
	.globl	_start
_start:
	mv	s0, ra
	la	s1, __init_array_start		# the functions that are constructors
	la	s2, __init_array_end
next:	bgeu	s1, s2, last
	lw	t0, 0(s1)
	addi	s1, s1, 4
	jalr	t0
	j	next
last:	mv	ra, s0
	j	main
