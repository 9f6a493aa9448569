/* The proved files, called from C: crates/files_c, built by `rt lib`. */
#include <stddef.h>
#include <stdint.h>

enum { OPEN, DELETE, CLOSE, READ, WRITE, GETC, PUTC, SEEK, TRUNCATE, FILE_SIZE };
enum { READS = 1, WRITES = 2, ONLY_OLD = 4, ONLY_NEW = 8 };
enum { ANSWERED, NO_DISK, NO_MEMORY };
#define REFUSED (-1)
#define END (-2)

/* A call on files: its device, from 4 on, or the mode of a file that is opened; and where its name or its bytes lie. A byte that is put and a
   position are the count. */
struct files_call {
    uint32_t kind, number, at, count;
};

/* Makes the calls, one after another, on an empty disk of so many blocks, and writes what each answers. Names and the bytes of writes are taken
   from the bytes, and those of reads are put there. */
uint32_t file_answers(uint32_t blocks, const struct files_call *calls, size_t count, uint8_t *bytes, size_t length, int64_t *answers, size_t room);

/* A file that was at rest when the power was cut, or one that there isn't: its name and its bytes lie among other bytes. */
struct file_at_rest {
    uint32_t name, name_bytes, exists, at, bytes;
};

/* Judges for each file whether the disk holds it as it is said: 1 if it does, else 0. */
uint32_t disk_answers(const uint8_t *disk, size_t size, const struct file_at_rest *files, size_t count, const uint8_t *texts, size_t length,
                      uint32_t *answers, size_t room);
