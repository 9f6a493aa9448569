/* A file system of one's own, judged after each block that it writes: the power may be cut there. */
#include <stdio.h>
#include <stdlib.h>
#include <string.h>
#include "files_c.h"

enum { BLOCKS = 20, SIZE = 512, ENTRIES = 13, ENTRY = 36, INDEXES = 7, INDEX = 72, DIRECTORY = 0, INDEX_BLOCK = 6, DATA = 7 };
enum { FILES = 3, MOST = 3 * SIZE, CALLS = 300, NAME = 1 };
#define NULL_WORD 0xffffffffu

static uint8_t disk[BLOCKS * SIZE];

static uint32_t word_at(const uint8_t *at)
{
    return at[0] | (uint32_t)at[1] << 8 | (uint32_t)at[2] << 16 | (uint32_t)at[3] << 24;
}

static void put_word(uint8_t *at, uint32_t word)
{
    for (int k = 0; k < 4; k++)
        at[k] = (uint8_t)(word >> 8 * k);
}

/* What the files have as the call begins, and as it ends: the test's own list. */
struct contents {
    uint8_t bytes[FILES][MOST];
    uint32_t size[FILES];
    int exists[FILES];
};
static struct contents before, after;
static int calls, written;

/* Whether the disk holds exactly these files. */
static int is_held(const struct contents *all)
{
    static uint8_t texts[FILES + FILES * MOST];
    struct file_at_rest files[FILES];
    uint32_t held[FILES];
    for (uint32_t f = 0; f < FILES; f++) {
        texts[f] = (uint8_t)('a' + f);
        files[f] = (struct file_at_rest){f, NAME, (uint32_t)all->exists[f], FILES + f * MOST, all->size[f]};
        memcpy(texts + files[f].at, all->bytes[f], MOST);
    }
    if (disk_answers(disk, sizeof disk, files, FILES, texts, sizeof texts, held, FILES) != ANSWERED) {
        puts("no disk, or no memory");
        exit(1);
    }
    return held[0] && held[1] && held[2];
}

/* A block is written, and the power may be cut: each file has to be as it was before the call, or as it is after it. */
static void write_block(uint32_t n, const uint8_t *block)
{
    memcpy(disk + n * SIZE, block, SIZE);
    written++;
    if (!is_held(&before) && !is_held(&after)) {
        printf("call %d, block %u written: the files are neither as before the call nor as after it\n", calls, n);
        exit(1);
    }
}

static uint8_t *entry_of(uint8_t *directory, int e)
{
    return directory + 12 + e * ENTRY;
}

/* The entry of a name, or the first one without a name. */
static int find(char name)
{
    int none = -1;
    for (int e = 0; e < ENTRIES; e++) {
        uint8_t *entry = entry_of(disk, e);
        if (entry[8] == (uint8_t)name)
            return e;
        if (entry[8] == 0 && none < 0)
            none = e;
    }
    return none;
}

/* Which index blocks and which data blocks files have: what the entries lead to. */
static void find_used(int *indexes, int *blocks)
{
    for (int e = 0; e < ENTRIES; e++) {
        uint8_t *entry = entry_of(disk, e);
        uint32_t size = word_at(entry), index = word_at(entry + 4);
        if (entry[8] == 0 || size == 0)
            continue;
        indexes[index] = 1;
        for (uint32_t k = 0; k < (size + SIZE - 1) / SIZE; k++)
            blocks[word_at(disk + INDEX_BLOCK * SIZE + index * INDEX + 8 + 4 * k)] = 1;
    }
}

static uint32_t first_free(int *used, uint32_t from)
{
    while (used[from])
        from++;
    used[from] = 1;
    return from;
}

/* Writes a file's bytes into free blocks, and their numbers into a free index block. The answer is its number. */
static uint32_t write_bytes(const uint8_t *bytes, uint32_t size)
{
    int indexes[INDEXES + 1] = {0}, blocks[BLOCKS + 1] = {0};
    uint8_t block[SIZE], index[SIZE];
    find_used(indexes, blocks);
    uint32_t i = first_free(indexes, 0);
    memcpy(index, disk + INDEX_BLOCK * SIZE, SIZE);
    memset(index + i * INDEX, 0xff, INDEX);
    put_word(index + i * INDEX + 4, 0);
    for (uint32_t k = 0; k < (size + SIZE - 1) / SIZE; k++) {
        uint32_t b = first_free(blocks, DATA);
        memset(block, 0, SIZE);
        memcpy(block, bytes + k * SIZE, size - k * SIZE < SIZE ? size - k * SIZE : SIZE);
        put_word(index + i * INDEX + 8 + 4 * k, b);
        write_block(b, block);
    }
    write_block(INDEX_BLOCK, index);
    return i;
}

/* Makes a file, or one in the place of that of its name: the directory block comes last. */
static void save(char name, const uint8_t *bytes, uint32_t size)
{
    uint8_t directory[SIZE];
    memcpy(directory, disk + DIRECTORY, SIZE);
    uint8_t *entry = entry_of(directory, find(name));
    entry[8] = (uint8_t)name;
#ifdef MISTAKE
    int indexes[INDEXES + 1] = {0}, blocks[BLOCKS + 1] = {0};
    find_used(indexes, blocks);
    put_word(entry, size);
    put_word(entry + 4, first_free(indexes, 0));
    write_block(DIRECTORY, directory);
    write_bytes(bytes, size);
#else
    uint32_t index = write_bytes(bytes, size);
    put_word(entry, size);
    put_word(entry + 4, index);
    write_block(DIRECTORY, directory);
#endif
}

static void delete(char name)
{
    uint8_t directory[SIZE];
    memcpy(directory, disk + DIRECTORY, SIZE);
    uint8_t *entry = entry_of(directory, find(name));
    memset(entry, 0, ENTRY);
    write_block(DIRECTORY, directory);
}

/* A number below another, the same ones in each run. */
static uint32_t below(uint32_t most)
{
    static uint32_t seed = 1;
    seed = seed * 1664525 + 1013904223;
    return (seed >> 8) % most;
}

/* A call: one time in three a file is deleted, if there is one, and else one is saved. */
static void any_call(void)
{
    uint32_t f = below(FILES);
    after = before;
    if (before.exists[f] && below(3) == 0) {
        after.exists[f] = 0;
        delete((char)('a' + f));
    } else {
        after.exists[f] = 1;
        after.size[f] = 1 + below(MOST);
        for (uint32_t k = 0; k < after.size[f]; k++)
            after.bytes[f][k] = (uint8_t)below(256);
        save((char)('a' + f), after.bytes[f], after.size[f]);
    }
    if (!is_held(&after)) {
        printf("call %d: the files aren't as the call leaves them\n", calls);
        exit(1);
    }
    before = after;
}

int main(void)
{
    for (int d = 0; d < 6; d++)
        put_word(disk + d * SIZE + 492, 2);
    for (calls = 1; calls <= CALLS; calls++)
        any_call();
    printf("%d calls, %d blocks written: after each the files are as before the call, or as after it\n", CALLS, written);
    return 0;
}
