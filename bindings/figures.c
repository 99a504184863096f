/* figures COUNT: reals as the library writes them, against C's own printf and strtod: the fewest digits, from 1 to 17, that are read back as the same
 * real, laid out as docs/DECISIONS.md says. Besides, strtod must read what is written as the real, bit for bit, and no byte behind it may change. The reals
 * are those at the edges, every power of ten and of two with its neighbours, and COUNT of each of: random bit patterns, reals below the least normal one,
 * amounts with two digits behind the point, whole numbers below 2 to the power 53, short decimals with any power of ten. The seed is fixed. Shows each
 * difference, and how many were compared. Ends with 1 where something differs. */
#include <stdint.h>
#include <stdio.h>
#include <stdlib.h>
#include <string.h>

#include "random.h"

/* The library's: the bytes at the front of a row of at least 32, and how many they are. */
size_t deed_real(uint64_t bits, uint8_t *row, size_t row_length);

enum { ROW = 32, MARGIN = 16 };

static unsigned long compared, differences;

static uint64_t bits_of(double x)
{
    uint64_t bits;
    memcpy(&bits, &x, sizeof bits);
    return bits;
}

/* The digits of a positive real and the power of ten of the first: by printf with more and more digits, until strtod gives the real back. */
static int shortest(double x, char *digits)
{
    char text[64];
    for (int p = 1; p <= 17; p++) {
        snprintf(text, sizeof text, "%.*e", p - 1, x);
        if (strtod(text, NULL) == x)
            break;
    }
    size_t n = 0;
    const char *c = text;
    for (; *c != 'e'; c++)
        if (*c != '.')
            digits[n++] = *c;
    while (n > 1 && digits[n - 1] == '0')
        n--;
    digits[n] = 0;
    return atoi(c + 1);
}

/* What is to be written: nothing for what is no finite number; plain from 0.000001 on and below 10 to the power 15, otherwise with a power of ten. */
static void own(uint64_t bits, char *to)
{
    double x;
    char digits[32];
    *to = 0;
    if ((bits >> 52 & 2047) == 2047)
        return;
    if (bits >> 63)
        *to++ = '-';
    bits &= UINT64_MAX >> 1;
    memcpy(&x, &bits, sizeof x);
    if (bits == 0) {
        strcpy(to, "0.0");
        return;
    }
    int power = shortest(x, digits), n = (int)strlen(digits);
    if (power < -6 || power > 14)
        sprintf(to, "%c.%se%d", digits[0], n > 1 ? digits + 1 : "0", power);
    else if (power < 0)
        sprintf(to, "0.%.*s%s", -power - 1, "000000", digits);
    else if (n <= power + 1)
        sprintf(to, "%s%.*s.0", digits, power + 1 - n, "000000000000000");
    else
        sprintf(to, "%.*s.%s", power + 1, digits, digits + power + 1);
}

static uint64_t random_bits(void) { return (uint64_t)random_word() << 32 | random_word(); }

static void compare(uint64_t bits)
{
    uint8_t row[ROW + MARGIN];
    char want[64];
    memset(row, 0xA5, sizeof row);
    size_t n = deed_real(bits, row, ROW);
    own(bits, want);
    int same = n == strlen(want) && memcmp(row, want, n) == 0;
    for (size_t i = n; i < sizeof row && same; i++)
        same = row[i] == 0xA5;
    if (same && n > 0) {
        memcpy(want, row, n);
        want[n] = 0;
        same = bits_of(strtod(want, NULL)) == bits;
    }
    compared++;
    if (!same) {
        differences++;
        printf("%016llx differs: %.*s, C: %s\n", (unsigned long long)bits, n < ROW ? (int)n : ROW, (const char *)row, want);
    }
}

/* A real, its negative and the neighbours of both. */
static void around(double x)
{
    for (int step = -1; step <= 1; step++) {
        compare(bits_of(x) + (uint64_t)step);
        compare(bits_of(-x) + (uint64_t)step);
    }
}

int main(int count, char **words)
{
    static const double edges[] = {1, 3, 0.05, 1234.56, 0.1, 0.3, 5e-324, 1e-323, 2.2250738585072014e-308, 1.7976931348623157e308, 9007199254740992.0,
                                   9007199254740993.0, 1e15, 999999999999999.9, 0.000001, 1e-7, 9.5, 1e21, 1e22, 1e23, 5e-5, 2147483648.0};
    unsigned long each = count > 1 ? strtoul(words[1], NULL, 10) : 0;
    uint8_t row[ROW];
    memset(row, 0xA5, sizeof row);
    if (deed_real(bits_of(1), row, ROW - 1) != 0 || row[0] != 0xA5) {
        printf("a short row is not left as it is\n");
        differences++;
    }
    compare(0);
    compare(UINT64_C(1) << 63);
    compare(UINT64_C(2047) << 52);
    compare(UINT64_C(4095) << 52);
    compare(UINT64_MAX);
    for (size_t i = 0; i < sizeof edges / sizeof edges[0]; i++)
        around(edges[i]);
    for (int power = -323; power <= 308; power++) {
        char text[16];
        sprintf(text, "1e%d", power);
        around(strtod(text, NULL));
    }
    for (uint64_t exponent = 0; exponent < 2047; exponent++)
        for (uint64_t bits = (exponent << 52) - (exponent > 0); bits <= (exponent << 52) + 1; bits++)
            compare(bits);
    for (int place = 0; place < 52; place++)
        compare(UINT64_C(1) << place);
    for (unsigned long i = 0; i < each; i++) {
        char text[32];
        compare(random_bits());
        compare(random_bits() >> 12 >> below(52));
        compare(bits_of(below(100000000) / 100.0));
        compare(bits_of((double)(random_bits() >> 11 >> below(53))));
        sprintf(text, "%ue%d", below(1 + below(100000)), (int)below(640) - 330);
        compare(bits_of(strtod(text, NULL)));
    }
    printf("%lu reals compared, %lu differ\n", compared, differences);
    return differences != 0;
}
