/* Random numbers that are the same on every machine: splitmix64. */
#ifndef RANDOM_H
#define RANDOM_H

#include <stdint.h>

struct random {
    uint64_t state;
};

static inline uint64_t random_number(struct random *r) {
    uint64_t z = r->state += 0x9E3779B97F4A7C15u;
    z = (z ^ (z >> 30)) * 0xBF58476D1CE4E5B9u;
    z = (z ^ (z >> 27)) * 0x94D049BB133111EBu;
    return z ^ (z >> 31);
}

/* A number below end, which is not 0. */
static inline uint32_t random_below(struct random *r, uint32_t end) {
    return (uint32_t)(random_number(r) % end);
}

#endif
