/* The arithmetic of reals worked out apart from the processor's own: in numbers of 128 bits, which the compiler does in software and rounds once
 * more to 64 (they have more than twice 53 bits, so that the second rounding does no harm), and decimals by the C library. */
#ifndef NUMBERS_H
#define NUMBERS_H

#include <math.h>
#include <stdint.h>
#include <stdlib.h>
#include <string.h>

#include "codes.h"
#include "deed.h"

/* Where there are none, C's own arithmetic serves. */
#ifdef __SIZEOF_FLOAT128__
typedef __float128 wide_real;
#else
typedef double wide_real;
#endif

/* What is due: the answer, and an entry where it is 0. */
struct due {
    unsigned number;
    int32_t entry[DEED_ENTRY];
};

/* A whole number or a real. */
struct number {
    int is_real;
    int32_t whole;
    double real;
};

static wide_real wide(struct number x) { return x.is_real ? (wide_real)x.real : (wide_real)x.whole; }

static struct number some_number(void)
{
    struct number x = {once_in(3) ? 0 : 1, (int32_t)random_whole(), random_real()};
    return x;
}

static void put_number_of(struct code *c, struct number x) { x.is_real ? put_real(c, x.real) : put(c, CONST, (uint32_t)x.whole); }

static struct due due_fault(unsigned number) { return (struct due){number, {0, 0, 0}}; }

static struct due due_whole(int64_t x)
{
    if (x < INT32_MIN || x > INT32_MAX)
        return due_fault(DEED_RANGE);
    return (struct due){0, {DEED_WHOLE, (int32_t)x, 0}};
}

/* The number rounded to 64 bits. */
static struct due due_real(wide_real x)
{
    double real = (double)x;
    uint64_t bits;
    if (!isfinite(real))
        return due_fault(DEED_RANGE);
    memcpy(&bits, &real, sizeof bits);
    return (struct due){0, {DEED_REAL, (int32_t)(uint32_t)bits, (int32_t)(uint32_t)(bits >> 32)}};
}

/* The greatest whole number that is not above x + 0.5, the sum rounded to 64 bits. */
static struct due due_entier(struct number x)
{
    wide_real sum = (wide_real)(double)(wide(x) + (wide_real)0.5);
    if (!x.is_real)
        return due_whole(x.whole);
    if (sum < (wide_real)-2147483648.0 || sum >= (wide_real)2147483648.0)
        return due_fault(DEED_RANGE);
    int64_t whole = -2147483649;
    for (int64_t step = (int64_t)1 << 32; step != 0; step /= 2) /* by halving */
        while ((wide_real)(whole + step) <= sum)
            whole += step;
    return due_whole(whole);
}

/* An operator's value. */
static struct due due_operator(uint32_t k, struct number x, struct number y)
{
    int wholes = !x.is_real && !y.is_real;
    int64_t a = x.whole, b = y.whole;
    wide_real c = wide(x), d = wide(y);
    switch (k) {
    case PLUS: return wholes ? due_whole(a + b) : due_real(c + d);
    case LESS: return wholes ? due_whole(a - b) : due_real(c - d);
    case TIMES: return wholes ? due_whole(a * b) : due_real(c * d);
    case DIVIDE: return d == 0 ? due_fault(DEED_ZERO_DIVISOR) : due_real(c / d);
    case BELOW: return due_whole(c < d);
    case AT_MOST: return due_whole(c <= d);
    case EQUAL: return due_whole(c == d);
    case AT_LEAST: return due_whole(c >= d);
    case ABOVE: return due_whole(c > d);
    default: return due_whole(c != d);
    }
}

/* Code that writes the value of an operator, or of a conversion (AS, STORE); what is due of it. */
static struct due number_code(struct code *c)
{
    static const uint32_t operators[] = {PLUS, LESS, TIMES, DIVIDE, BELOW, AT_MOST, EQUAL, AT_LEAST, ABOVE, UNEQUAL};
    struct number x = some_number(), y = once_in(8) ? x : some_number();
    uint32_t k = once_in(3) ? once_in(2) ? AS : STORE : operators[below(once_in(3) ? 10 : 4)], to = below(2);
    put(c, ENTER, counts(1, 1, 0));
    put(c, CONST, 1);
    put_number_of(c, x);
    if (k == AS || k == STORE) {
        put(c, k, k == AS ? to : parts(0, to, 0));
        if (k == STORE)
            put(c, LOAD, parts(0, to, 0));
        put_written(c, to);
    } else {
        put_number_of(c, y);
        put(c, k, 0);
        put_written(c, operator_type(k, x.is_real ? REALS : WHOLES, y.is_real ? REALS : WHOLES));
    }
    put(c, END, 0);
    return k != AS && k != STORE ? due_operator(k, x, y) : to == REALS ? due_real(wide(x)) : due_entier(x);
}

/* A source that writes a number with a point of at most 15 digits, as a real or as a whole number; what is due of it by the C library's reading. */
static struct due decimal_source(char *text, size_t room)
{
    char digits[40];
    size_t n = 0;
    unsigned front = below(16), behind = 1 + below(15), zeros = once_in(3) ? below(15) : 0;
    if (front + behind > 15)
        behind = front < 15 ? 15 - front : (front = 14, 1);
    for (unsigned i = 0; i < front + behind; i++) {
        if (i == front)
            digits[n++] = '.';
        digits[n++] = (char)('0' + (i < zeros ? 0 : below(10)));
    }
    digits[n] = 0;
    int whole = once_in(3);
    snprintf(text, room, "'begin' %s(1, %s) 'end'", whole ? "outinteger" : "outreal", digits);
    struct number x = {1, 0, strtod(digits, NULL)};
    return whole ? due_entier(x) : due_real(wide(x));
}

#endif
