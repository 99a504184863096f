/* Random numbers from a fixed seed: each run of a program sees the same ones. */
#ifndef RANDOM_H
#define RANDOM_H

#include <stdint.h>

static uint64_t random_state;

static uint32_t random_word(void)
{
    uint64_t z = random_state += 0x9e3779b97f4a7c15u;
    z = (z ^ (z >> 30)) * 0xbf58476d1ce4e5b9u;
    z = (z ^ (z >> 27)) * 0x94d049bb133111ebu;
    return (uint32_t)(z >> 32);
}

/* Below n, which is not 0. */
static uint32_t below(uint32_t n) { return (uint32_t)(((uint64_t)random_word() * n) >> 32); }

/* Once in n. */
static inline int once_in(uint32_t n) { return below(n) == 0; }

#endif
