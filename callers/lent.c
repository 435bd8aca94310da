#define _DEFAULT_SOURCE
#include "lent.h"

#include <stdio.h>
#include <stdlib.h>
#include <string.h>
#include <sys/mman.h>

#define PAGE 4096
#define ROOM (5 * PAGE)
/* bytes before a loan that are looked at */
#define BEFORE 64

/* The end of new memory, where the page that nobody may touch begins. */
static uint8_t *new_end(void)
{
    uint8_t *start =
        mmap(NULL, ROOM + PAGE, PROT_READ | PROT_WRITE, MAP_PRIVATE | MAP_ANONYMOUS, -1, 0);
    if (start == MAP_FAILED || mprotect(start + ROOM, PAGE, PROT_NONE) != 0) {
        perror("memory to lend");
        exit(2);
    }
    return start + ROOM;
}

uint8_t *lend(enum lent which, size_t length, uint8_t filler)
{
    static uint8_t *ends[2];
    if (ends[which] == NULL) {
        ends[which] = new_end();
    }
    uint8_t *loan = ends[which] - length;
    memset(loan - BEFORE, filler, BEFORE + length);
    return loan;
}

static bool all(const uint8_t *bytes, size_t length, uint8_t filler)
{
    for (size_t i = 0; i < length; i++) {
        if (bytes[i] != filler) {
            return false;
        }
    }
    return true;
}

bool stayed(const uint8_t *loan, size_t length, uint8_t filler, size_t part, size_t part_length)
{
    size_t behind = part + part_length;
    return all(loan - BEFORE, BEFORE + part, filler) && all(loan + behind, length - behind, filler);
}
