/* Files of one's own, in memory, and the proved ones beside them: the calls of the book's chapter 19. */
#include <stdio.h>
#include <string.h>
#include "files_c.h"

enum { BLOCKS = 20, DATA_BLOCKS = 13, INDEX_BLOCKS = 7, FILES = 4, DEVICES = 6, FIRST = 4, CALLS = 3000, NONE = -1 };
enum { MOST = DATA_BLOCKS * 512, NAMES = 0, OUT = 8, IN = 2048, BYTES = 4096 };

static struct {
    int exists;
    uint32_t size;
    uint8_t bytes[MOST];
} files[FILES];

static struct {
    int file, reads, writes;
    uint32_t position;
} devices[DEVICES] = {{NONE, 0, 0, 0}, {NONE, 0, 0, 0}, {NONE, 0, 0, 0}, {NONE, 0, 0, 0}, {NONE, 0, 0, 0}, {NONE, 0, 0, 0}};

/* The names lie first, each of one byte; then what is written, and what is read. */
static uint8_t here[BYTES], there[BYTES];

/* Whether the disk has room for all files if one has this size. */
static int fits(int file, uint32_t size)
{
    uint32_t data = 0, indexes = 0;
    for (int f = 0; f < FILES; f++) {
        uint32_t bytes = f == file ? size : files[f].size;
        data += (bytes + 511) / 512;
        indexes += (bytes + 8191) / 8192;
    }
    return data <= DATA_BLOCKS && indexes <= INDEX_BLOCKS;
}

static int is_open(int file)
{
    for (int d = 0; d < DEVICES; d++)
        if (devices[d].file == file)
            return 1;
    return 0;
}

static int64_t open_file(int file, uint32_t mode)
{
    int d = 0, both = !(mode & (READS | WRITES));
    while (d < DEVICES && devices[d].file != NONE)
        d++;
    if (is_open(file) || d == DEVICES || (mode & (files[file].exists ? ONLY_NEW : ONLY_OLD)))
        return REFUSED;
    if (!files[file].exists) {
        files[file].exists = 1;
        files[file].size = 0;
    }
    devices[d].file = file;
    devices[d].reads = both || mode & READS;
    devices[d].writes = both || mode & WRITES;
    devices[d].position = 0;
    return FIRST + d;
}

static int64_t delete_file(int file)
{
    if (is_open(file) || !files[file].exists)
        return REFUSED;
    files[file].exists = 0;
    files[file].size = 0;
    return 0;
}

static int64_t read_bytes(int d, uint8_t *bytes, uint32_t count)
{
    int f = devices[d].file;
    uint32_t at = devices[d].position;
    if (!devices[d].reads)
        return REFUSED;
    if (count == 0)
        return 0;
    if (at >= files[f].size)
        return END;
    if (count > files[f].size - at)
        count = files[f].size - at;
    memcpy(bytes, files[f].bytes + at, count);
    devices[d].position += count;
    return count;
}

/* As many of the bytes as there is room for are written. */
static int64_t write_bytes(int d, const uint8_t *bytes, uint32_t count)
{
    int f = devices[d].file;
    uint32_t at = devices[d].position, wanted = count;
    while (count > 0 && !fits(f, at + count > files[f].size ? at + count : files[f].size))
        count--;
    if (!devices[d].writes || (wanted > 0 && count == 0))
        return REFUSED;
    memcpy(files[f].bytes + at, bytes, count);
    devices[d].position += count;
#ifdef MISTAKE
    files[f].size = at + count;
#else
    if (at + count > files[f].size)
        files[f].size = at + count;
#endif
    return count;
}

static int64_t seek(int d, uint32_t position)
{
    if (position > files[devices[d].file].size)
        return REFUSED;
    devices[d].position = position;
    return 0;
}

static int64_t truncate_file(int d)
{
    if (!devices[d].writes)
        return REFUSED;
    files[devices[d].file].size = 0;
    devices[d].position = 0;
    return 0;
}

static int64_t on_device(struct files_call c, int d)
{
    uint8_t b = (uint8_t)c.count;
    int64_t answer;
    if (devices[d].file == NONE)
        return REFUSED;
    switch (c.kind) {
    case CLOSE:
        devices[d].file = NONE;
        return 0;
    case READ:
        return read_bytes(d, here + c.at, c.count);
    case WRITE:
        return write_bytes(d, here + c.at, c.count);
    case GETC:
        answer = read_bytes(d, &b, 1);
        return answer == 1 ? b : answer;
    case PUTC:
        return write_bytes(d, &b, 1) == 1 ? 0 : REFUSED;
    case SEEK:
        return seek(d, c.count);
    case TRUNCATE:
        return truncate_file(d);
    default:
        return files[devices[d].file].size;
    }
}

static int64_t answer(struct files_call c)
{
    if (c.kind == OPEN)
        return open_file((int)c.at, c.number);
    if (c.kind == DELETE)
        return delete_file((int)c.at);
    return on_device(c, (int)c.number - FIRST);
}

/* A number below another, the same ones in each run. */
static uint32_t below(uint32_t most)
{
    static uint32_t seed = 1;
    seed = seed * 1664525 + 1013904223;
    return (seed >> 8) % most;
}

static struct files_call any_call(void)
{
    uint32_t kind = below(4) ? below(10) : OPEN, d = FIRST + below(DEVICES);
    switch (kind) {
    case OPEN:
        return (struct files_call){OPEN, below(16), below(FILES), 1};
    case DELETE:
        return (struct files_call){DELETE, 0, below(FILES), 1};
    case READ:
        return (struct files_call){READ, d, IN + below(1000), below(1000)};
    case WRITE:
        return (struct files_call){WRITE, d, OUT + below(1000), below(1000)};
    default:
        return (struct files_call){kind, d, 0, below(kind == PUTC ? 256 : 2000)};
    }
}

int main(void)
{
    static const char *const names[] = {"open", "delete", "close", "read", "write", "getc", "putc", "seek", "truncate", "size"};
    static struct files_call calls[CALLS];
    static int64_t answers[CALLS], proved[CALLS];
    int refused = 0;
    for (int f = 0; f < FILES; f++)
        here[NAMES + f] = (uint8_t)('a' + f);
    for (int k = OUT; k < IN; k++)
        here[k] = (uint8_t)below(256);
    memcpy(there, here, BYTES);
    for (int k = 0; k < CALLS; k++) {
        calls[k] = any_call();
        answers[k] = answer(calls[k]);
        refused += answers[k] == REFUSED;
    }
    if (file_answers(BLOCKS, calls, CALLS, there, BYTES, proved, CALLS) != ANSWERED) {
        puts("no disk, or no memory");
        return 1;
    }
    for (int k = 0; k < CALLS; k++)
        if (answers[k] != proved[k]) {
            printf("call %d, %s of device %u: %lld here, %lld by the proved files\n", k + 1, names[calls[k].kind], calls[k].number,
                   (long long)answers[k], (long long)proved[k]);
            return 1;
        }
    printf("%d calls, %d of them refused: the same answers, and %s\n", CALLS, refused,
           memcmp(here, there, BYTES) == 0 ? "the same bytes" : "other bytes");
    return 0;
}
