/* processor.c - the processor: the forty instructions of RV32I (docs/FORMATS.md, Instructions) */
#include "kernel.h"

uint8_t ram[RAM_SIZE];

/* A value of so many bits, with its sign. */
static uint32_t extended(uint32_t value, int bits)
{
    uint32_t sign = 1u << (bits - 1);
    return (value ^ sign) - sign;
}

static uint32_t immediate_of_store(uint32_t word)
{
    return extended(word >> 25 << 5 | (word >> 7 & 31), 12);
}

static uint32_t immediate_of_branch(uint32_t word)
{
    return extended(word >> 31 << 12 | (word >> 7 & 1) << 11 | (word >> 25 & 63) << 5 | (word >> 8 & 15) << 1, 13);
}

static uint32_t immediate_of_jump(uint32_t word)
{
    return extended(word >> 31 << 20 | (word >> 12 & 255) << 12 | (word >> 20 & 1) << 11 | (word >> 21 & 1023) << 1, 21);
}

/* Whether a load, a store or a fetch may have these addresses. */
static bool is_in_reach(uint32_t address, uint32_t width)
{
    return address % width == 0 && address <= RAM_SIZE - width;
}

static uint32_t bytes_at(uint32_t address, uint32_t width)
{
    uint32_t value = 0;
    for (uint32_t k = 0; k < width; k++)
        value |= (uint32_t)ram[address + k] << 8 * k;
    return value;
}

/* put - an instruction ends: rd has a value, unless it is x0, and the next instruction follows */
static enum ending put(struct process *p, uint32_t rd, uint32_t value)
{
    if (rd != 0)
        p->x[rd] = value;
    p->pc += 4;
    return GOES_ON;
}

/* jump - rd gets the address behind the jump */
static enum ending jump(struct process *p, uint32_t rd, uint32_t target)
{
    uint32_t behind = p->pc + 4;
    if (target % 4 != 0)
        return TARGET;
    p->pc = target - 4;
    return put(p, rd, behind);
}

static enum ending branch(struct process *p, uint32_t function, uint32_t a, uint32_t b, uint32_t target)
{
    bool is_less = function < 6 ? (int32_t)a < (int32_t)b : a < b;
    if (function == 2 || function == 3)
        return ILLEGAL;
    bool holds = function < 2 ? a == b : is_less;
    return holds != (function % 2 == 1) ? jump(p, 0, target) : put(p, 0, 0);
}

static enum ending load(struct process *p, uint32_t function, uint32_t rd, uint32_t address)
{
    static const uint32_t widths[] = {1, 2, 4, 0, 1, 2, 0, 0};
    uint32_t width = widths[function];
    if (width == 0)
        return ILLEGAL;
    if (!is_in_reach(address, width))
        return LOAD;
    uint32_t value = bytes_at(address, width);
    return put(p, rd, function < 4 ? extended(value, (int)(8 * width)) : value);
}

static enum ending store(struct process *p, uint32_t function, uint32_t address, uint32_t value)
{
    uint32_t width = 1u << function;
    if (function > 2)
        return ILLEGAL;
    if (!is_in_reach(address, width))
        return STORE;
    for (uint32_t k = 0; k < width; k++)
        ram[address + k] = value >> 8 * k & 255;
    return put(p, 0, 0);
}

/* compute - an operation on words; the other one is `sub` for `add`, `sra` for `srl` */
static uint32_t compute(uint32_t function, uint32_t a, uint32_t b, bool is_other)
{
    switch (function) {
    case 0: return is_other ? a - b : a + b;
    case 1: return a << (b & 31);
    case 2: return (int32_t)a < (int32_t)b;
    case 3: return a < b;
    case 4: return a ^ b;
    case 5: return is_other ? (uint32_t)((int32_t)a >> (b & 31)) : a >> (b & 31);
    case 6: return a | b;
    default: return a & b;
    }
}

/* operate - an operation on two registers, or on a register and an immediate */
static enum ending operate(struct process *p, uint32_t word, uint32_t function, uint32_t rd, uint32_t a, uint32_t b)
{
    bool has_immediate = (word & 0x7F) == 0x13, is_shift = function == 1 || function == 5;
    uint32_t seven = word >> 25;
    if (has_immediate && !is_shift)
        return put(p, rd, compute(function, a, extended(word >> 20, 12), false));
    bool has_other = function == 5 || (function == 0 && !has_immediate);
    if (seven != 0 && !(seven == 32 && has_other))
        return ILLEGAL;
    return put(p, rd, compute(function, a, has_immediate ? word >> 20 & 31 : b, seven == 32));
}

/* execute - take one instruction of a process; a trap changes nothing */
enum ending execute(struct process *p)
{
    if (!is_in_reach(p->pc, 4))
        return FETCH;
    uint32_t word = bytes_at(p->pc, 4), function = word >> 12 & 7, rd = word >> 7 & 31;
    uint32_t a = p->x[word >> 15 & 31], b = p->x[word >> 20 & 31], twelve = extended(word >> 20, 12);
    switch (word & 0x7F) {
    case 0x37: return put(p, rd, word & 0xFFFFF000);
    case 0x17: return put(p, rd, p->pc + (word & 0xFFFFF000));
    case 0x6F: return jump(p, rd, p->pc + immediate_of_jump(word));
    case 0x67: return function == 0 ? jump(p, rd, (a + twelve) & ~1u) : ILLEGAL;
    case 0x63: return branch(p, function, a, b, p->pc + immediate_of_branch(word));
    case 0x03: return load(p, function, rd, a + twelve);
    case 0x23: return store(p, function, a + immediate_of_store(word), b);
    case 0x13:
    case 0x33: return operate(p, word, function, rd, a, b);
    case 0x0F: return function == 0 ? put(p, 0, 0) : ILLEGAL;
    case 0x73: return word == 0x73 ? ECALL : word == 0x100073 ? BREAK : ILLEGAL;
    default: return ILLEGAL;
    }
}
