/* The machine's words, laid down one instruction after the other (docs/MACHINE.md). */
#ifndef WORDS_H
#define WORDS_H

#include <stddef.h>
#include <stdint.h>
#include <string.h>

enum operation {
    END = 1, JUMP, ENTER, LEAVE, CALL_NEEDED, CALL, RETURN, GO, NEXT, UNLESS, TEST, CONST, LOAD, STORE, ASSIGN, RESULT, DROP, IN, OUT, HOLD, SUM, MINUS, NOT,
    IABS, PLUS, LESS, TIMES, OVER, BELOW, AT_MOST, EQUAL, AT_LEAST, ABOVE, UNEQUAL, AND, OR, IMPL, EQUIV, NAME, WORK, SEEK, PASS, LEND, REFUSE, CHANNEL,
    DIVIDE, OUTREAL, LOGICAL, HIGH, AS
};

/* The types, by their numbers. */
enum { WHOLES, REALS, TRUTHS };

enum { WORDS = 16500 };

/* The offset that stands for the cell found. */
enum { FOUND = 8191 };

struct code {
    size_t length;
    uint32_t word[WORDS];
};

/* The next instruction's address. */
static inline uint32_t here(const struct code *c) { return (uint32_t)(c->length / 2); }

static inline void put(struct code *c, uint32_t operation, uint32_t operand)
{
    if (c->length + 2 > WORDS)
        return;
    /* The place tells the instruction: no two have the same. */
    c->word[c->length] = operation + 64 * (here(c) + 1000);
    c->word[c->length + 1] = operand;
    c->length += 2;
}

static inline uint32_t parts(uint32_t high, uint32_t mid, uint32_t low) { return (high << 26) | ((mid & 8191) << 13) | (low & 8191); }

/* How many cells of each type a block has. */
static inline uint32_t counts(uint32_t wholes, uint32_t reals, uint32_t truths) { return wholes + 1024 * (reals + 1024 * truths); }

/* A real constant: the lower half of its bits as a whole number, then the upper half. */
static inline void put_real(struct code *c, double x)
{
    uint64_t bits;
    memcpy(&bits, &x, sizeof bits);
    put(c, CONST, (uint32_t)bits);
    put(c, HIGH, (uint32_t)(bits >> 32));
}

static inline void put_address(struct code *c, uint32_t at, uint32_t low)
{
    if (2 * (size_t)at + 1 < WORDS)
        c->word[2 * at + 1] = (c->word[2 * at + 1] & ~8191u) | (low & 8191);
}

static inline void put_position(struct code *c, uint32_t at, uint32_t mid)
{
    if (2 * (size_t)at + 1 < WORDS)
        c->word[2 * at + 1] = (c->word[2 * at + 1] & ~(8191u << 13)) | ((mid & 8191) << 13);
}

#endif
