#include "reading.h"

#include <stdbool.h>
#include <stdio.h>
#include <string.h>

size_t read_file(const char *folder, const char *name, uint8_t *buffer, size_t room)
{
    char path[4096];
    int length = snprintf(path, sizeof path, "%s/%s", folder, name);
    if (length < 0 || (size_t)length >= sizeof path) {
        return 0;
    }
    FILE *file = fopen(path, "rb");
    if (file == NULL) {
        return 0;
    }
    size_t count = fread(buffer, 1, room, file);
    fclose(file);
    return count;
}

static struct span from(struct span text, size_t at)
{
    return (struct span){text.bytes + at, text.length - at};
}

/* How many bytes the first line has, with its end if it has one. */
static size_t line_length(struct span text)
{
    const uint8_t *end = memchr(text.bytes, '\n', text.length);
    return end == NULL ? text.length : (size_t)(end - text.bytes) + 1;
}

/* "each `table terms` line starts a new query, a last line without byte 10 does not" */
static bool starts_query(struct span text)
{
    static const char names[] = "table terms\n";
    size_t length = sizeof names - 1;
    return text.length >= length && memcmp(text.bytes, names, length) == 0;
}

/* The first line belongs to the first query whatever it is: "bytes before the first such line are a
 * query of their own". */
struct span take_query(struct span *input)
{
    size_t at = line_length(*input);
    while (at < input->length && !starts_query(from(*input, at))) {
        at += line_length(from(*input, at));
    }
    struct span query = {input->bytes, at};
    *input = from(*input, at);
    return query;
}
