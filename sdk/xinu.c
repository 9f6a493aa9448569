/* xinu.c - memcpy, memmove, memset, memcmp, strlen, strcmp, strncpy, atoi, fprintf, sprintf, puts */

#include "xinu.h"
#include <stdarg.h>

/*------------------------------------------------------------------------
 *  memcpy  -  Copy n bytes between ranges that don't meet
 *------------------------------------------------------------------------
 */
void	*memcpy(
	  void		*to,		/* Where the bytes go		*/
	  const void	*from,		/* Where they are		*/
	  uint32	n		/* How many			*/
	)
{
	byte	*t = to;
	const byte *f = from;

	while (n-- > 0) {
		*t++ = *f++;
	}
	return to;
}

/*------------------------------------------------------------------------
 *  memmove  -  Copy n bytes between ranges that may meet
 *------------------------------------------------------------------------
 */
void	*memmove(
	  void		*to,		/* Where the bytes go		*/
	  const void	*from,		/* Where they are		*/
	  uint32	n		/* How many			*/
	)
{
	byte	*t = to;
	const byte *f = from;

	if (t <= f) {
		return memcpy(to, from, n);
	}
	while (n-- > 0) {
		t[n] = f[n];
	}
	return to;
}

/*------------------------------------------------------------------------
 *  memset  -  Set n bytes to one value
 *------------------------------------------------------------------------
 */
void	*memset(
	  void		*to,		/* The first byte		*/
	  int32		value,		/* Its lowest byte counts	*/
	  uint32	n		/* How many			*/
	)
{
	byte	*t = to;

	while (n-- > 0) {
		*t++ = value;
	}
	return to;
}

/*------------------------------------------------------------------------
 *  memcmp  -  Compare n bytes: negative, 0 or positive as a is below,
 *		  equal to or above b at the first difference
 *------------------------------------------------------------------------
 */
int32	memcmp(
	  const void	*a,		/* The first range		*/
	  const void	*b,		/* The second			*/
	  uint32	n		/* How many bytes each has	*/
	)
{
	const byte *x = a, *y = b;

	for (; n > 0; n--, x++, y++) {
		if (*x != *y) {
			return *x - *y;
		}
	}
	return 0;
}

/*------------------------------------------------------------------------
 *  strlen  -  How many bytes come before the first zero
 *------------------------------------------------------------------------
 */
uint32	strlen(
	  const char	*s		/* A text that a zero ends	*/
	)
{
	uint32	n = 0;

	while (s[n] != '\0') {
		n++;
	}
	return n;
}

/*------------------------------------------------------------------------
 *  strcmp  -  Compare two texts: negative, 0 or positive as a is below,
 *		  equal to or above b at the first difference
 *------------------------------------------------------------------------
 */
int32	strcmp(
	  const char	*a,		/* The first text		*/
	  const char	*b		/* The second			*/
	)
{
	while (*a != '\0' && *a == *b) {
		a++;
		b++;
	}
	return (byte)*a - (byte)*b;
}

/*------------------------------------------------------------------------
 *  strncpy  -  Copy a text's first n bytes, with zeros after a shorter one;
 *		  a text of n bytes or more has no zero in its copy
 *------------------------------------------------------------------------
 */
char	*strncpy(
	  char		*to,		/* Room for n bytes		*/
	  const char	*from,		/* The text			*/
	  uint32	n		/* How many bytes are set	*/
	)
{
	uint32	i;

	for (i = 0; i < n; i++) {
		to[i] = *from;
		if (*from != '\0') {
			from++;
		}
	}
	return to;
}

/*------------------------------------------------------------------------
 *  atoi  -  Read a decimal number after blanks and a sign: 0 if there is
 *		  no digit; what follows the digits isn't read
 *------------------------------------------------------------------------
 */
int32	atoi(
	  const char	*s		/* The text			*/
	)
{
	uint32	n = 0;
	char	sign;

	while (*s == ' ' || (*s >= '\t' && *s <= '\r')) {
		s++;
	}
	sign = *s;
	if (sign == '-' || sign == '+') {
		s++;
	}
	for (; *s >= '0' && *s <= '9'; s++) {
		n = 10 * n + (*s - '0');
	}
	return sign == '-' ? -n : n;
}

/* Where fprintf and sprintf put characters: they are ready for a device, which gets them when the */
/*   room is full, and at the end; or they go to memory					*/

struct	outbuf {
	did32	dev;
	char	*to;			/* Where in memory, or NULL	*/
	uint32	count;			/* How many are ready, or there	*/
	char	bytes[64];
};

/*------------------------------------------------------------------------
 *  flush  -  Write what is ready
 *------------------------------------------------------------------------
 */
static	void	flush(
	  struct outbuf	*out
	)
{
	if (out->count > 0) {
		write(out->dev, out->bytes, out->count);
	}
	out->count = 0;
}

/*------------------------------------------------------------------------
 *  put  -  Put a character
 *------------------------------------------------------------------------
 */
static	void	put(
	  struct outbuf	*out,
	  char		c
	)
{
	if (out->to != NULL) {
		out->to[out->count++] = c;
		return;
	}
	if (out->count == sizeof(out->bytes)) {
		flush(out);
	}
	out->bytes[out->count++] = c;
}

/*------------------------------------------------------------------------
 *  decimal  -  Find the digits of a number, and how many there are; RV32I
 *		  has no division, so powers of ten are subtracted
 *------------------------------------------------------------------------
 */
static	int32	decimal(
	  uint32	n,		/* The number			*/
	  char		*digits		/* Room for 10 digits		*/
	)
{
	static const uint32 tens[] = { 1000000000, 100000000, 10000000, 1000000,
		100000, 10000, 1000, 100, 10, 1 };
	int32	i, count = 0;

	for (i = 0; i < 10; i++) {
		digits[count] = '0';
		while (n >= tens[i]) {
			n -= tens[i];
			digits[count]++;
		}
		if (count > 0 || digits[count] != '0' || i == 9) {
			count++;
		}
	}
	return count;
}

/*------------------------------------------------------------------------
 *  hexadecimal  -  The same with the base 16
 *------------------------------------------------------------------------
 */
static	int32	hexadecimal(
	  uint32	n,		/* The number			*/
	  char		*digits		/* Room for 8 digits		*/
	)
{
	int32	shift, count = 0;

	for (shift = 28; shift >= 0; shift -= 4) {
		if (count > 0 || n >> shift != 0 || shift == 0) {
			digits[count++] = "0123456789abcdef"[(n >> shift) & 15];
		}
	}
	return count;
}

/*------------------------------------------------------------------------
 *  putnum  -  Put digits, and before them so much that there are width
 *		  characters
 *------------------------------------------------------------------------
 */
static	void	putnum(
	  struct outbuf	*out,
	  const char	*digits,
	  int32		count,		/* How many digits there are	*/
	  int32		width,		/* At least so many characters	*/
	  char		pad		/* What comes before the digits	*/
	)
{
	while (width-- > count) {
		put(out, pad);
	}
	while (count-- > 0) {
		put(out, *digits++);
	}
}

/*------------------------------------------------------------------------
 *  putarg  -  Put what stands for a % of a text
 *------------------------------------------------------------------------
 */
static	void	putarg(
	  struct outbuf	*out,
	  char		kind,		/* The letter after the %	*/
	  int32		width,		/* The width before it		*/
	  char		pad,		/* 0 if that begins with one	*/
	  va_list	*args
	)
{
	const char *s;
	char	digits[10];
	int32	n;

	switch (kind) {
	case 'd':
		n = va_arg(*args, int32);
		if (n < 0) {
			put(out, '-');
			width--;
		}
		putnum(out, digits, decimal(n < 0 ? -(uint32)n : (uint32)n, digits), width, pad);
		break;
	case 'u':
		putnum(out, digits, decimal(va_arg(*args, uint32), digits), width, pad);
		break;
	case 'x':
		putnum(out, digits, hexadecimal(va_arg(*args, uint32), digits), width, pad);
		break;
	case 'c':
		put(out, va_arg(*args, int32));
		break;
	case 's':
		for (s = va_arg(*args, const char *); *s != '\0'; s++) {
			put(out, *s);
		}
		break;
	default:
		put(out, kind);
	}
}

/*------------------------------------------------------------------------
 *  puttext  -  Put a text with %d, %u, %x, %c, %s and %%; a width may
 *		  stand before d, u and x, and a 0 before it
 *------------------------------------------------------------------------
 */
static	void	puttext(
	  struct outbuf	*out,
	  const char	*fmt,		/* The text			*/
	  va_list	*args		/* What its % stand for		*/
	)
{
	char	pad;
	int32	width;

	for (; *fmt != '\0'; fmt++) {
		if (*fmt != '%') {
			put(out, *fmt);
			continue;
		}
		pad = *++fmt == '0' ? '0' : ' ';
		for (width = 0; *fmt >= '0' && *fmt <= '9'; fmt++) {
			width = 10 * width + *fmt - '0';
		}
		if (*fmt == '\0') {
			return;
		}
		putarg(out, *fmt, width, pad, args);
	}
}

/*------------------------------------------------------------------------
 *  fprintf  -  Write a text to a device
 *------------------------------------------------------------------------
 */
status	fprintf(
	  did32		dev,		/* The device			*/
	  const char	*fmt,		/* The text			*/
	  ...				/* What its % stand for		*/
	)
{
	struct	outbuf	out = { .dev = dev };
	va_list	args;

	va_start(args, fmt);
	puttext(&out, fmt, &args);
	va_end(args);
	flush(&out);
	return OK;
}

/*------------------------------------------------------------------------
 *  sprintf  -  Put a text into memory, with a zero behind it, and tell how
 *		  many bytes are ahead of that
 *------------------------------------------------------------------------
 */
int32	sprintf(
	  char		*to,		/* Room for all of them		*/
	  const char	*fmt,		/* The text			*/
	  ...				/* What its % stand for		*/
	)
{
	struct	outbuf	out = { .to = to };
	va_list	args;

	va_start(args, fmt);
	puttext(&out, fmt, &args);
	va_end(args);
	to[out.count] = '\0';
	return out.count;
}

/*------------------------------------------------------------------------
 *  puts  -  Put a text and a newline on the console
 *------------------------------------------------------------------------
 */
status	puts(
	  const char	*s		/* The text			*/
	)
{
	return fprintf(CONSOLE, "%s\n", s);
}
