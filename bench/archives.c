/* What a call of an archive takes: its stack, which is painted before, and its memory, which is counted here. */
#include <malloc.h>
#include <pthread.h>
#include <stdint.h>
#include <stdio.h>
#include <stdlib.h>
#include <string.h>

enum { CALLS = 1000, STACK = 1 << 20, PAINT = 0xa5 };

struct tried {
    uint64_t is_there;
    void *at;
};
static size_t held, most, allocations;

static struct tried tried(void *at)
{
    allocations++;
    held += at ? malloc_usable_size(at) : 0;
    most = held > most ? held : most;
    return (struct tried){at != NULL, at ? at : (void *)&held};
}

struct tried rattle_alloc(size_t size, size_t align)
{
    return tried(malloc(size ? size : align));
}

struct tried rattle_realloc(void *at, size_t old, size_t size, size_t align)
{
    (void)old;
    held -= malloc_usable_size(at);
    return tried(realloc(at, size ? size : align));
}

void rattle_dealloc(void *at)
{
    held -= malloc_usable_size(at);
    free(at);
}

#include CALLED

static unsigned char stack[STACK] __attribute__((aligned(4096)));

static void *run(void *nothing)
{
    (void)nothing;
    return call() == 0 ? stack : NULL;
}

/* A thread that takes memory alone: what the C library's heap does to the stack isn't the archive's. */
static void *run_nothing(void *nothing)
{
    (void)nothing;
    free(malloc(CALLS));
    return stack;
}

/* How many bytes of its stack a thread changes. */
static size_t used(void *(*body)(void *))
{
    pthread_attr_t attributes;
    pthread_t thread;
    void *answer;
    size_t low = 0;
    memset(stack, PAINT, STACK);
    pthread_attr_init(&attributes);
    pthread_attr_setstack(&attributes, stack, STACK);
    if (pthread_create(&thread, &attributes, body, NULL) != 0 || pthread_join(thread, &answer) != 0 || answer == NULL)
        exit(1);
    while (stack[low] == PAINT)
        low++;
    return STACK - low;
}

int main(void)
{
    size_t alone = used(run_nothing), all = used(run);
    printf("%zu %zu %zu %zu\n", all - alone, most, allocations, held);
    return 0;
}
