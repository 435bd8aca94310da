/* Numbers that look like chance, the same in every run. */

#ifndef RANDOM_H
#define RANDOM_H

#include <stdbool.h>
#include <stdint.h>

struct chance {
    uint64_t state;
};

/* Any word. */
uint64_t any(struct chance *chance);

/* A number below a limit that is not 0. */
uint64_t below(struct chance *chance, uint64_t limit);

/* A number from 1 to the most, more often a small one. */
uint64_t up_to(struct chance *chance, uint64_t most);

/* So many times in a hundred. */
bool odds(struct chance *chance, unsigned percent);

#endif
