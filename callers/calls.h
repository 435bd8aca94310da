/* The operations under one form: a call is a value, and so is what comes of it. */

#ifndef CALLS_H
#define CALLS_H

#include <kolbrees.h>

#include "reading.h"

enum operation { LOAD, OPEN, DECIDE, LABELS, EXPLAIN, APART, GRANT, IMPORT, OPERATIONS };

extern const char *const operation_names[OPERATIONS];

/* What an operation does not take is left out. */
struct call {
    enum operation operation;
    const kolbrees_policy *policy;
    uint64_t session;
    uint64_t partition;
    struct span text; /* of a policy, a query or a rule */
    size_t room;      /* cells of the lent buffer */
    size_t place;     /* where importing writes */
};

/* The reply, the session of opening and deciding, the policy of loading, and the bytes written to
 * the lent buffer. What an operation does not give is 0. */
struct outcome {
    kolbrees_reply reply;
    uint64_t session;
    kolbrees_policy policy;
    size_t bytes;
    union {
        uint8_t text[KOLBREES_MOST_QUERY_BYTES];
        uint32_t words[KOLBREES_MOST_LINES];
        uint64_t numbers[KOLBREES_MOST_APART_CELLS];
    } list;
};

/* Performs a call, and once more with other bytes in the lent buffer, and says what is not as every
 * call owes it: the same comes of both; the text stays, and in and before the buffer all stays but
 * what the reply counts; nothing is touched past the end of either; the reply is one that the
 * operation has, and the policy and the session beside it are those of such a reply. */
struct outcome perform(const struct call *call);

#endif
