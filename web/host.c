/* host.c - what the module of xinu_run needs of a system, over six functions of the page (worker.js) */

/* A pointer and a size have 64 bits, also after the memory was lowered to 32. */
typedef unsigned char u8;
typedef long i64;
typedef unsigned long u64;

#define FROM_PAGE(name) __attribute__((import_module("host"), import_name(name)))
#define ENOENT 2

/* Each answers at least 0, or an errno with a minus. */
FROM_PAGE("write") i64 host_write(int fd, const void *from, u64 n);
FROM_PAGE("read") i64 host_read(int fd, void *to, u64 n);
FROM_PAGE("open") int host_open(const char *name, int flags);
FROM_PAGE("close") int host_close(int fd);
FROM_PAGE("arg") i64 host_arg(u64 k, u8 *to, u64 room);
/* milliseconds since 1970 */
FROM_PAGE("now") double host_now(void);

/* Files. */

static int last_errno;

int rattle_errno(void)
{
	return last_errno;
}

void rattle_set_errno(int e)
{
	last_errno = e;
}

static i64 told(i64 r)
{
	if (r >= 0)
		return r;
	last_errno = (int)-r;
	return -1;
}

i64 write(int fd, const void *from, u64 n)
{
	return told(host_write(fd, from, n));
}

/* as the proved module calls it */
i64 __write(int fd, const void *from, u64 n)
{
	return write(fd, from, n);
}

i64 read(int fd, void *to, u64 n)
{
	return told(host_read(fd, to, n));
}

int open(const char *name, int flags, ...)
{
	return (int)told(host_open(name, flags));
}

int close(int fd)
{
	return (int)told(host_close(fd));
}

/* as the program of the sessions calls it: the number, as two digits */
int __xpg_strerror_r(int e, char *to, u64 room)
{
	if (room < 3)
		return 34;
	to[0] = (char)('0' + e / 10 % 10);
	to[1] = (char)('0' + e % 10);
	to[2] = 0;
	return 0;
}

/* Standard error is a terminal, so that `races` tells how far it is; there are no other links. */
i64 readlink(const char *name, char *to, u64 room)
{
	static const char errors[] = "/proc/self/fd/2", terminal[] = "/dev/pts/0";
	const u64 length = sizeof terminal - 1;
	int i;

	for (i = 0; errors[i] && name[i] == errors[i]; i++)
		;
	if (name[i] != errors[i] || room < length)
		return told(-ENOENT);
	__builtin_memcpy(to, terminal, length);
	return (i64)length;
}

int clock_gettime(int clock, i64 *to)
{
	double ms = host_now();

	(void)clock;
	to[0] = (i64)(ms / 1000);
	to[1] = (i64)((ms - 1000.0 * (double)to[0]) * 1e6);
	return 0;
}

void *__sysv_signal(int signal, void *handler)
{
	(void)signal, (void)handler;
	return 0;
}

i64 rattle_arg(u64 k, u8 *to, u64 room)
{
	return host_arg(k, to, room);
}

i64 rattle_env_at(u64 k, u8 *to, u64 room)
{
	(void)k, (void)to, (void)room;
	return -1;
}

i64 rattle_env(const char *name, u8 *to, u64 room)
{
	(void)name, (void)to, (void)room;
	return -1;
}

/* The heap: pieces of 2^k bytes, k at least 5, each with its k in front; what is given back is kept in a list for each k. */

#define HEAD 16ul
#define PAGE 65536ul
#define MOST 40

typedef struct {
	u64 is_given, place;
} Given;

extern u8 __heap_base;
static u64 top, limit;
static void *lists[MOST];

static int kind_of(u64 n)
{
	int k = 5;

	while (k < MOST && (1ul << k) < n)
		k++;
	return k;
}

static void **next_of(u8 *piece)
{
	return (void **)(piece + HEAD);
}

static void *taken(u64 n)
{
	int k = kind_of(n + HEAD);
	u8 *piece;

	if (n > (1ul << (MOST - 1)) || k >= MOST)
		return 0;
	piece = lists[k];
	if (piece) {
		lists[k] = *next_of(piece);
	} else {
		u64 size = 1ul << k;

		if (!top) {
			top = ((u64)&__heap_base + 15) & ~15ul;
			limit = __builtin_wasm_memory_size(0) * PAGE;
		}
		if (top + size > limit) {
			u64 pages = (top + size - limit + PAGE - 1) / PAGE;

			/* -1 has 32 bits if the module was lowered */
			if ((unsigned)__builtin_wasm_memory_grow(0, pages) == ~0u)
				return 0;
			limit += pages * PAGE;
		}
		piece = (u8 *)top;
		top += size;
	}
	*(u64 *)piece = (u64)k;
	return piece + HEAD;
}

void rattle_dealloc(void *old)
{
	u8 *piece = (u8 *)old - HEAD;
	u64 k;

	if (!old)
		return;
	k = *(u64 *)piece;
	*next_of(piece) = lists[k];
	lists[k] = piece;
}

/* n bytes at a multiple of `align`, as the module asks: at most 16. */
static Given given(u64 n, u64 align)
{
	void *to = align <= HEAD ? taken(n) : 0;
	Given g = {to != 0, (u64)to};

	return g;
}

Given rattle_alloc(u64 n, u64 align)
{
	return given(n, align);
}

/* The first `kept` bytes stay. */
Given rattle_realloc(void *old, u64 kept, u64 n, u64 align)
{
	u64 room = (1ul << *(u64 *)((u8 *)old - HEAD)) - HEAD;
	Given g = {1, (u64)old};

	if (n <= room && n * 4 > room)
		return g;
	g = given(n, align);
	if (g.is_given) {
		__builtin_memcpy((void *)g.place, old, kept < n ? kept : n);
		rattle_dealloc(old);
	}
	return g;
}

/* Words of 128 bits, which clang asks of a library. */

typedef __int128 i128;
typedef unsigned __int128 u128;
typedef union {
	u128 all;
	struct {
		u64 low, high;
	};
} Wide;

static u128 product(u64 a, u64 b)
{
	u64 al = (unsigned)a, ah = a >> 32, bl = (unsigned)b, bh = b >> 32;
	u64 low = al * bl, mid = ah * bl + (low >> 32), mid2 = al * bh + (unsigned)mid;
	Wide w;

	w.low = mid2 << 32 | (unsigned)low;
	w.high = ah * bh + (mid >> 32) + (mid2 >> 32);
	return w.all;
}

u128 __multi3(u128 a, u128 b)
{
	Wide x = {a}, y = {b}, r;

	r.all = product(x.low, y.low);
	r.high += x.low * y.high + x.high * y.low;
	return r.all;
}

u128 __ashlti3(u128 a, int n)
{
	Wide x = {a}, r;

	if (n & 64) {
		r.high = x.low << (n & 63);
		r.low = 0;
	} else if (n) {
		r.high = x.high << n | x.low >> (64 - n);
		r.low = x.low << n;
	} else {
		r = x;
	}
	return r.all;
}

u128 __lshrti3(u128 a, int n)
{
	Wide x = {a}, r;

	if (n & 64) {
		r.low = x.high >> (n & 63);
		r.high = 0;
	} else if (n) {
		r.low = x.low >> n | x.high << (64 - n);
		r.high = x.high >> n;
	} else {
		r = x;
	}
	return r.all;
}

i128 __ashrti3(i128 a, int n)
{
	Wide x = {(u128)a}, r;

	if (n & 64) {
		r.low = (u64)((i64)x.high >> (n & 63));
		r.high = (u64)((i64)x.high >> 63);
	} else if (n) {
		r.low = x.low >> n | x.high << (64 - n);
		r.high = (u64)((i64)x.high >> n);
	} else {
		r = x;
	}
	return (i128)r.all;
}

static u128 quotient(u128 a, u128 b, u128 *rest)
{
	Wide q = {0}, r = {0}, x = {a};
	int i;

	for (i = 127; i >= 0; i--) {
		r.high = r.high << 1 | r.low >> 63;
		r.low = r.low << 1 | ((i >= 64 ? x.high >> (i - 64) : x.low >> i) & 1);
		if (r.all < b)
			continue;
		r.all -= b;
		if (i >= 64)
			q.high |= 1ul << (i - 64);
		else
			q.low |= 1ul << i;
	}
	*rest = r.all;
	return q.all;
}

u128 __udivti3(u128 a, u128 b)
{
	u128 rest;

	return quotient(a, b, &rest);
}

u128 __umodti3(u128 a, u128 b)
{
	u128 rest;

	quotient(a, b, &rest);
	return rest;
}

/* What the start of a proved program asks of an x86-64: whether the processor has what the code was compiled for. All is there. */
const u8 *__x86_get_cpuid_feature_leaf(int leaf)
{
	static u8 features[64];

	(void)leaf;
	__builtin_memset(features, 255, sizeof features);
	return features;
}
