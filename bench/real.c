/* real.c - the self tests of mbedTLS's SHA-256, AES and SHA-512, without a call but the last one: real code, to compare the speed of a
   step with. EXIT is the number of the call that ends the program: 9 on the machine, 93 on Linux. */

#include <mbedtls/aes.h>
#include <mbedtls/sha256.h>
#include <mbedtls/sha512.h>

/* It has a stack and thread-local variables of its own, so it runs wherever it is put, with all registers 0. */
static char stack[16384] __attribute__((aligned(16), used));

__asm__(".section .text.start, \"ax\"\n\t.globl _start\n_start:\n\tla tp, __tls_main\n\tla sp, stack + 16384\n\tcall main\n"
	"\tli a7, " EXIT "\n\tecall\n\t.text\n");

/* printf - the tests print nothing: they are told to be quiet */
int printf(const char *format, ...)
{
	(void)format;
	return 0;
}

int main(void)
{
	return mbedtls_sha256_self_test(0) | mbedtls_aes_self_test(0) | mbedtls_sha512_self_test(0);
}
