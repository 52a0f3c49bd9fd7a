/* Numbers that a seed gives (splitmix64), the same on every machine. Take one number in one expression: C leaves the
   order of arguments open. */
#ifndef FUZZ_RANDOM_H
#define FUZZ_RANDOM_H

#include <stdbool.h>
#include <stdint.h>

struct random {
    uint64_t state;
};

static inline uint64_t random_next(struct random *random) {
    uint64_t mixed = random->state += 0x9E3779B97F4A7C15;
    mixed = (mixed ^ (mixed >> 30)) * 0xBF58476D1CE4E5B9;
    mixed = (mixed ^ (mixed >> 27)) * 0x94D049BB133111EB;
    return mixed ^ (mixed >> 31);
}

/* The numbers of one case, which are those of no other. */
static inline struct random random_of_case(uint64_t seed, uint64_t number) {
    struct random random = {seed};
    random.state = random_next(&random) ^ (number * 0xD1342543DE82EF95);
    return random;
}

/* A number below the bound, which is not 0. */
static inline uint32_t below(struct random *random, uint32_t bound) {
    return (uint32_t)(random_next(random) % bound);
}

/* A number from the first to the last. */
static inline uint32_t between(struct random *random, uint32_t first, uint32_t last) {
    return first + below(random, last - first + 1);
}

/* Yes in so many of a hundred times. */
static inline bool chance(struct random *random, uint32_t percent) {
    return below(random, 100) < percent;
}

#endif
