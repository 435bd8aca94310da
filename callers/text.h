/* A text that is written piece by piece. */

#ifndef TEXT_H
#define TEXT_H

#include "reading.h"

/* More than the limit of a policy. */
#define MOST_TEXT_BYTES 20000

struct text {
    size_t length;
    uint8_t bytes[MOST_TEXT_BYTES];
};

struct span span_of(const struct text *text);

/* Puts bytes in the place of others, as many as there is room for. */
void replace(struct text *text, size_t at, size_t count, struct span by);

/* Writes behind the text, up to 63 bytes. */
void put(struct text *text, const char *format, ...) __attribute__((format(printf, 2, 3)));

#endif
