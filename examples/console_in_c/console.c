/* A console of one's own, and the proved one beside it: lines are edited and echoed, and output can be held. */
#include <stdio.h>
#include <string.h>
#include "console_c.h"

enum { CALLS = 4000, IN = 128, OUT = 64, SHOWN = 20, END_MARK = 256 };

/* Bytes or items, of which the first is taken. */
struct row {
    int items[IN], count;
};
static struct row input, output, echo;
static int mode = COOKED, echoes = 1, held, typed;

static void add(struct row *r, int item, int most)
{
    if (r->count < most)
        r->items[r->count++] = item;
}

static int first_of(struct row *r)
{
    int item = r->items[0];
    memmove(r->items, r->items + 1, (size_t)--r->count * sizeof *r->items);
    return item;
}

static void show(const char *text)
{
    for (; echoes && *text; text++)
        add(&echo, *text, SHOWN);
}

/* A control character is shown as two, and a newline with its carriage return. */
static void show_byte(int b)
{
    if (b == '\n')
        show("\r\n");
    else if (b < ' ' || b == 127)
        show((char[]){'^', b == 127 ? '?' : (char)(b + 64), 0});
    else
        show((char[]){(char)b, 0});
}

static int ring(void)
{
    add(&echo, 7, SHOWN);
    return 0;
}

/* The line is the last bytes of the input, as many as are typed. */
static int64_t commit(void)
{
    int count = typed;
    typed = 0;
    return count;
}

/* Erases the last byte of the line, here and on the screen: each column that it took. */
static void erase(void)
{
    int b = input.items[--input.count];
    typed--;
    show("\b \b");
#ifndef MISTAKE
    if (b < ' ' || b == 127)
        show("\b \b");
#else
    (void)b;
#endif
}

static int64_t type_cooked(int b)
{
    if (b == '\b') {
        if (typed > 0)
            erase();
    } else if (b == 21) {
        input.count -= typed;
        typed = 0;
        show("\r\n");
    } else if (b == '\n') {
        if (input.count >= IN)
            return ring();
        add(&input, b, IN);
        typed++;
        show_byte(b);
        return commit();
    } else if (b == 4 && typed == 0) {
        if (input.count >= IN)
            return ring();
        add(&input, END_MARK, IN);
        return 1;
    } else if (input.count >= IN - 1) {
        ring();
    } else {
        add(&input, b, IN);
        typed++;
        show_byte(b);
    }
    return 0;
}

static int64_t type(int b)
{
    if (mode == RAW) {
        int is_room = input.count < IN;
        add(&input, b, IN);
        return is_room;
    }
    b = b == '\r' ? '\n' : b;
    held = b == 19;
    if (b == 19 || b == 17)
        return 0;
    if (mode == COOKED)
        return type_cooked(b);
    if (input.count >= IN)
        return ring();
    show_byte(b);
    add(&input, b, IN);
    return 1;
}

static int64_t take(void)
{
    if (input.count == typed)
        return REFUSED;
    int item = first_of(&input);
    return item != END_MARK ? item : mode == COOKED ? END : 4;
}

static int64_t put(int b)
{
    int is_line = b == '\n' && mode != RAW;
    if (output.count + is_line >= OUT)
        return REFUSED;
    if (is_line)
        add(&output, '\r', OUT);
    add(&output, b, OUT);
    return 0;
}

static int64_t send(void)
{
    if (held || echo.count + output.count == 0)
        return REFUSED;
    return echo.count > 0 ? first_of(&echo) : OUTPUT + first_of(&output);
}

static int64_t control(int f)
{
    switch (f) {
    case RAW:
        held = 0; /* fallthrough */
    case CBREAK:
        mode = f;
        return commit();
    case COOKED:
        mode = f;
        return 0;
    case WAITING:
        return input.count - typed;
    case ECHO:
    case NO_ECHO:
        echoes = f == ECHO;
        return 0;
    default:
        return REFUSED;
    }
}

static int64_t answer(struct console_call c)
{
    switch (c.kind) {
    case TYPE:
        return type(c.byte);
    case TAKE:
        return take();
    case PUT:
        return put(c.byte);
    case SEND:
        return send();
    default:
        return control(c.byte);
    }
}

/* A number below another, the same ones in each run. */
static uint32_t below(uint32_t most)
{
    static uint32_t seed = 1;
    seed = seed * 1664525 + 1013904223;
    return (seed >> 8) % most;
}

/* Most calls type a byte, at times one with a meaning, or send one. */
static struct console_call any_call(void)
{
    static const uint8_t meant[] = {'\b', '\b', 21, '\n', '\r', 4, 17, 19, 127, 1};
    uint8_t b = below(3) ? (uint8_t)('a' + below(26)) : meant[below(sizeof meant)];
    switch (below(10)) {
    case 0:
    case 1:
    case 2:
        return (struct console_call){TYPE, b};
    case 3:
    case 4:
    case 5:
    case 6:
        return (struct console_call){SEND, 0};
    case 7:
        return (struct console_call){TAKE, 0};
    case 8:
        return (struct console_call){PUT, b};
    default:
        return (struct console_call){CONTROL, (uint8_t)(below(2) ? COOKED : below(8))};
    }
}

int main(void)
{
    static const char *const names[] = {"type", "take", "put", "send", "control"};
    static struct console_call calls[CALLS];
    static int64_t answers[CALLS], proved[CALLS];
    int refused = 0;
    for (int k = 0; k < CALLS; k++) {
        calls[k] = any_call();
        answers[k] = answer(calls[k]);
        refused += answers[k] == REFUSED;
    }
    if (console_answers(calls, CALLS, proved, CALLS) != ANSWERED) {
        puts("no memory");
        return 1;
    }
    for (int k = 0; k < CALLS; k++)
        if (answers[k] != proved[k]) {
            printf("call %d, %s of byte %u: %lld here, %lld by the proved console\n", k + 1, names[calls[k].kind], calls[k].byte,
                   (long long)answers[k], (long long)proved[k]);
            return 1;
        }
    printf("%d calls, %d of them refused: the same answers\n", CALLS, refused);
    return 0;
}
