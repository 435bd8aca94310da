#include "text.h"

#include <stdarg.h>
#include <stdio.h>
#include <string.h>

struct span span_of(const struct text *text)
{
    return (struct span){text->bytes, text->length};
}

void replace(struct text *text, size_t at, size_t count, struct span by)
{
    uint8_t behind[MOST_TEXT_BYTES];
    size_t rest = text->length - at - count;
    memcpy(behind, text->bytes + at + count, rest);
    if (by.length > MOST_TEXT_BYTES - at - rest) {
        by.length = MOST_TEXT_BYTES - at - rest;
    }
    memcpy(text->bytes + at, by.bytes, by.length);
    memcpy(text->bytes + at + by.length, behind, rest);
    text->length = at + by.length + rest;
}

void put(struct text *text, const char *format, ...)
{
    char written[64];
    va_list values;
    va_start(values, format);
    vsnprintf(written, sizeof written, format, values);
    va_end(values);
    replace(text, text->length, 0, (struct span){(const uint8_t *)written, strlen(written)});
}
