#ifndef BITS_H
#define BITS_H

#include <stdint.h>

/* How many bits of a word are set. */
static inline unsigned ones(uint64_t word)
{
    unsigned count = 0;
    for (; word != 0; word &= word - 1) {
        count++;
    }
    return count;
}

#endif
