/* Memory to lend. It ends where a page begins that nobody may touch, so that a read or a write past
 * the end stops the program, in code that was not built to be watched too. */

#ifndef LENT_H
#define LENT_H

#include <stdbool.h>
#include <stddef.h>
#include <stdint.h>

enum lent { LENT_TEXT, LENT_BUFFER };

/* So many bytes, up to 20,000. They and those before them are filled with the filler. */
uint8_t *lend(enum lent which, size_t length, uint8_t filler);

/* Whether the bytes of the loan, and those before it, are as they were, but for a part of it. */
bool stayed(const uint8_t *loan, size_t length, uint8_t filler, size_t part, size_t part_length);

#endif
