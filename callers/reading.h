/* Files as document 01's program reads and cuts them. */

#ifndef READING_H
#define READING_H

#include <stddef.h>
#include <stdint.h>

/* "queries from standard input, up to 65,536 bytes" */
#define MOST_INPUT_BYTES 65536

/* A part of a text that somebody else keeps. */
struct span {
    const uint8_t *bytes;
    size_t length;
};

/* The first bytes of a folder's file, as many as there is room for; of one that cannot be opened
 * none. */
size_t read_file(const char *folder, const char *name, uint8_t *buffer, size_t room);

/* Takes the first query off the front of the input, which has some bytes. */
struct span take_query(struct span *input);

#endif
