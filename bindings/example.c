/* example FILE NUMBER ..: a deed from its page to what it pays. It reads FILE, translates it, runs it on the numbers and prints what it writes, on one
 * line. Built and run by `bindings/run example`. Exit status: 0 if the run ended, 1 if the deed was refused or its run stopped, 2 if nothing was done. */
#include "deed.h"

#include <stdio.h>
#include <stdlib.h>
#include <string.h>

static uint8_t source[DEED_SOURCE + 1]; /* one byte more, so that a longer file is refused and not cut */
static uint32_t code[DEED_CODE];
static int64_t store[DEED_STORE];
static int32_t output[DEED_ENTRY * 1024];

static size_t bring_in(const char *name) {
    FILE *file = fopen(name, "rb");
    if (!file) {
        perror(name);
        exit(2);
    }
    size_t length = fread(source, 1, sizeof source, file);
    if (ferror(file)) {
        perror(name);
        exit(2);
    }
    fclose(file);
    return length;
}

/* An output entry: a whole number, or a real by its bits. */
static void print_entry(const int32_t *entry) {
    if (entry[0] == DEED_WHOLE) {
        printf("%ld", (long)entry[1]);
        return;
    }
    uint64_t bits = (uint32_t)entry[1] | (uint64_t)(uint32_t)entry[2] << 32;
    double real;
    memcpy(&real, &bits, sizeof real);
    printf("%.17g", real);
}

int main(int count, char **words) {
    int32_t input[64];
    size_t numbers = 0, place, taken, written;
    uint64_t done;
    if (count < 2 || count > 66) {
        fputs("usage: example FILE NUMBER ..\n", stderr);
        return 2;
    }
    size_t length = bring_in(words[1]);
    for (int i = 2; i < count; i++) input[numbers++] = (int32_t)strtol(words[i], NULL, 10);

    uint16_t answer = deed_translate(source, length, code, DEED_CODE, &place);
    if (answer != DEED_ACCEPTED) {
        fprintf(stderr, "%s: refused, %u, at byte %zu\n", words[1], answer, place);
        return 1;
    }
    answer = deed_run(code, DEED_CODE, input, numbers, 1000000, store, DEED_STORE, output, sizeof output / sizeof *output,
                      &place, &done, &taken, &written);
    for (size_t i = 0; i + DEED_ENTRY <= written; i += DEED_ENTRY) {
        if (i) putchar(' ');
        print_entry(output + i);
    }
    putchar('\n');
    if (answer != DEED_ENDED) {
        fprintf(stderr, "%s: stopped, %u, at byte %zu\n", words[1], answer, place);
        return 1;
    }
    if (taken < numbers) fprintf(stderr, "%s: of %zu numbers given the run took %zu\n", words[1], numbers, taken);
    return fflush(stdout) ? 2 : 0;
}
