/* Numbers that look random and are the same at each run. */
#ifndef RANDOMS_H
#define RANDOMS_H

#include <stdint.h>

static uint64_t seed;

static inline uint32_t random_below(uint32_t bound)
{
    seed = seed * 6364136223846793005u + 1442695040888963407u;
    return (uint32_t)(seed >> 33) % bound;
}

#endif
