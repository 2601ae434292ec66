/* Seeded random inputs for the log program. No system headers; same seed, same bytes everywhere. */
#ifndef GENERATE_H
#define GENERATE_H

#define GENERATE_LOG_LIMIT 16384UL
#define GENERATE_PAST_LIMIT 200UL
#define GENERATE_ROOM (3UL + GENERATE_LOG_LIMIT + GENERATE_PAST_LIMIT)

/* splitmix64: the state is one 64-bit word, and any seed is a good one. */
struct generate_random {
    unsigned long long word;
};

unsigned long long generate_next(struct generate_random *random);

/* A number from 0 to bound - 1; bound is at least 1. */
unsigned generate_below(struct generate_random *random, unsigned bound);

/* Fills the start of a buffer of GENERATE_ROOM bytes with C, L, w and log bytes; returns their number. */
unsigned long generate_input(unsigned long long seed, unsigned char *buffer);

/* The same for a dual panel; L is then even, 2 to 32. The marker itself stands nowhere in the buffer. */
unsigned long generate_dual_input(unsigned long long seed, unsigned char *buffer);

#endif
