/* A plain interpreter of the forty RV32I instructions, to compare the speed of a step with.

   usage: interpreter STEPS < image

   The image is that of docs/FORMATS.md, and the run is one process alone: the content is put at its place, the pc is the entry, all
   registers are 0. It prints how many steps were taken, the pc and the registers a0 and a1, and how long the steps took. */
#include <stdint.h>
#include <stdio.h>
#include <stdlib.h>
#include <string.h>
#include <time.h>

enum { RAM = 0x100000 };
enum outcome { WENT, CALL, EXIT, TRAP };

static uint8_t ram[RAM];
static uint32_t x[32], pc;

static int fits(uint32_t a, uint32_t width) { return a % width == 0 && a < RAM; }

static uint32_t word_at(const uint8_t *p) { uint32_t w; memcpy(&w, p, 4); return w; }

static uint32_t half_at(const uint8_t *p) { uint16_t h; memcpy(&h, p, 2); return h; }

static enum outcome step(void) {
    if (pc == 0xfffffffc) return EXIT;
    if (!fits(pc, 4)) return TRAP;
    uint32_t w = word_at(ram + pc), rd = w >> 7 & 31, funct3 = w >> 12 & 7, funct7 = w >> 25;
    uint32_t a = x[w >> 15 & 31], b = x[w >> 20 & 31], value, next = pc + 4;
    uint32_t i = (uint32_t)((int32_t)w >> 20);
    uint32_t s = (uint32_t)((int32_t)w >> 25 << 5) | (w >> 7 & 31);
    switch (w & 127) {
    case 0x37: value = w & 0xfffff000; break;
    case 0x17: value = pc + (w & 0xfffff000); break;
    case 0x6f:
        next = pc + ((uint32_t)((int32_t)w >> 31 << 20) | (w & 0xff000) | (w >> 9 & 0x800) | (w >> 20 & 0x7fe));
        if (next % 4) return TRAP;
        value = pc + 4;
        break;
    case 0x67:
        next = (a + i) & ~1u;
        if (funct3 || next % 4) return TRAP;
        value = pc + 4;
        break;
    case 0x63: {
        int taken;
        switch (funct3) {
        case 0: taken = a == b; break;
        case 1: taken = a != b; break;
        case 4: taken = (int32_t)a < (int32_t)b; break;
        case 5: taken = (int32_t)a >= (int32_t)b; break;
        case 6: taken = a < b; break;
        case 7: taken = a >= b; break;
        default: return TRAP;
        }
        if (taken) next = pc + ((uint32_t)((int32_t)w >> 31 << 12) | (w << 4 & 0x800) | (w >> 20 & 0x7e0) | (w >> 7 & 0x1e));
        if (next % 4) return TRAP;
        pc = next;
        return WENT;
    }
    case 0x03:
        i += a;
        switch (funct3) {
        case 0: if (!fits(i, 1)) return TRAP; value = (uint32_t)(int8_t)ram[i]; break;
        case 1: if (!fits(i, 2)) return TRAP; value = (uint32_t)(int16_t)half_at(ram + i); break;
        case 2: if (!fits(i, 4)) return TRAP; value = word_at(ram + i); break;
        case 4: if (!fits(i, 1)) return TRAP; value = ram[i]; break;
        case 5: if (!fits(i, 2)) return TRAP; value = half_at(ram + i); break;
        default: return TRAP;
        }
        break;
    case 0x23:
        s += a;
        switch (funct3) {
        case 0: if (!fits(s, 1)) return TRAP; ram[s] = (uint8_t)b; break;
        case 1: if (!fits(s, 2)) return TRAP; memcpy(ram + s, &b, 2); break;
        case 2: if (!fits(s, 4)) return TRAP; memcpy(ram + s, &b, 4); break;
        default: return TRAP;
        }
        pc = next;
        return WENT;
    case 0x13:
        b = i;
        /* fall through */
    case 0x33: {
        int is_register = (w & 127) == 0x33, is_shift = funct3 == 1 || funct3 == 5;
        int is_other = funct7 == 0x20 && (funct3 == 5 || (is_register && funct3 == 0));
        if ((is_register || is_shift) && funct7 && !is_other) return TRAP;
        switch (funct3) {
        case 0: value = is_register && is_other ? a - b : a + b; break;
        case 1: value = a << (b & 31); break;
        case 2: value = (int32_t)a < (int32_t)b; break;
        case 3: value = a < b; break;
        case 4: value = a ^ b; break;
        case 5: value = is_other ? (uint32_t)((int32_t)a >> (b & 31)) : a >> (b & 31); break;
        case 6: value = a | b; break;
        default: value = a & b; break;
        }
        break;
    }
    case 0x0f: if (funct3) return TRAP; pc = next; return WENT;
    case 0x73: if (w == 0x73) { pc = next; return CALL; } return TRAP;
    default: return TRAP;
    }
    if (rd) x[rd] = value;
    pc = next;
    return WENT;
}

int main(int argc, char **argv) {
    static uint8_t image[28 + RAM];
    size_t n = fread(image, 1, sizeof image, stdin);
    if (argc != 2 || n < 28 || word_at(image + 8) + (uint64_t)(n - 28) > RAM) return 1;
    memcpy(ram + word_at(image + 8), image + 28, n - 28);
    pc = word_at(image + 16);
    uint64_t steps = strtoull(argv[1], 0, 10), done = 0;
    struct timespec from, to;
    clock_gettime(CLOCK_MONOTONIC, &from);
    while (done < steps && step() == WENT) done++;
    clock_gettime(CLOCK_MONOTONIC, &to);
    double seconds = (double)(to.tv_sec - from.tv_sec) + (double)(to.tv_nsec - from.tv_nsec) / 1e9;
    printf("steps %llu pc %x a0 %x a1 %x seconds %.3f steps/s %.0f\n", (unsigned long long)done, pc, x[10], x[11], seconds, (double)done / seconds);
    return 0;
}
