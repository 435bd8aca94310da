#include "replies.h"

#include <inttypes.h>
#include <stdbool.h>

#include "checks.h"

/* A word and the counts that it has, or a refusal's number and the lines that it has, with the
 * operations that have it. */
struct form {
    unsigned operations;
    uint64_t word, number, least, most;
};

#define ON(operation) (1u << (operation))
#define ON_PARTITION (ON(EXPLAIN) | ON(APART) | ON(GRANT))
#define ON_QUERY (ON(DECIDE) | ON(LABELS) | ON_PARTITION)
#define ON_BUFFER (ON(LABELS) | ON_PARTITION | ON(IMPORT))
#define ON_POLICY (ON(OPEN) | ON_QUERY | ON(IMPORT))

/* A policy text has up to 83 lines: three of names, 16 tables, 32 views and 32 partitions. A query
 * text has up to nine, and a rule is one. A text that stops early is faulty past its last line. */
static const struct form forms[] = {
    {ON(LOAD) | ON(OPEN), KOLBREES_ACCEPTED, 0, 0, 0},
    {ON(DECIDE), KOLBREES_YES, 0, 1, KOLBREES_MOST_PARTITIONS},
    {ON(DECIDE), KOLBREES_NO, 0, 1, KOLBREES_MOST_PARTITIONS},
    {ON(LABELS), KOLBREES_GIVEN, 0, 1, KOLBREES_MOST_LINES},
    {ON(EXPLAIN), KOLBREES_SETTLED, 0, 1, KOLBREES_MOST_LINES},
    {ON(EXPLAIN), KOLBREES_UNSETTLED, 0, 1, KOLBREES_MOST_LINES},
    {ON(APART), KOLBREES_SETTLED, 0, 0, 0},
    {ON(APART), KOLBREES_APART, 0, 1, KOLBREES_MOST_APART_CELLS / KOLBREES_ROW_CELLS},
    {ON(GRANT), KOLBREES_GIVEN, 0, 0, KOLBREES_MOST_LINES},
    {ON(GRANT), KOLBREES_NONE, 0, 0, 0},
    {ON(IMPORT), KOLBREES_WRITTEN, 0, 1, KOLBREES_MOST_QUERY_BYTES},

    {ON_POLICY, KOLBREES_REFUSED, KOLBREES_BAD_POLICY, 0, 0},
    {ON(DECIDE), KOLBREES_REFUSED, KOLBREES_BAD_SESSION, 0, 0},
    {ON_PARTITION, KOLBREES_REFUSED, KOLBREES_UNKNOWN, 0, 0},
    {ON(LOAD) | ON_QUERY | ON(IMPORT), KOLBREES_REFUSED, KOLBREES_TOO_LONG, 0, 0},
    {ON_BUFFER, KOLBREES_REFUSED, KOLBREES_NO_ROOM, 0, 0},

    {ON(LOAD), KOLBREES_REFUSED, KOLBREES_MALFORMED, 1, 84},
    {ON(LOAD), KOLBREES_REFUSED, KOLBREES_OUTSIDE, 2, 84},
    {ON(LOAD), KOLBREES_REFUSED, KOLBREES_OUT_OF_TURN, 2, 84},
    {ON(LOAD), KOLBREES_REFUSED, KOLBREES_UNKNOWN, 4, 83},
    {ON(LOAD), KOLBREES_REFUSED, KOLBREES_WRONG_WIDTH, 4, 50},
    {ON(LOAD), KOLBREES_REFUSED, KOLBREES_SHOWN_AND_HIDDEN, 4, 50},

    {ON_QUERY, KOLBREES_REFUSED, KOLBREES_MALFORMED, 1, 10},
    {ON_QUERY, KOLBREES_REFUSED, KOLBREES_TOO_LONG, 10, 10},
    {ON_QUERY, KOLBREES_REFUSED, KOLBREES_OUTSIDE, 2, 9},
    {ON_QUERY, KOLBREES_REFUSED, KOLBREES_UNKNOWN, 2, 9},
    {ON_QUERY, KOLBREES_REFUSED, KOLBREES_WRONG_WIDTH, 2, 9},
    {ON_QUERY, KOLBREES_REFUSED, KOLBREES_SHOWN_AND_HIDDEN, 2, 9},

    {ON(IMPORT), KOLBREES_REFUSED, KOLBREES_MALFORMED, 1, 1},
    {ON(IMPORT), KOLBREES_REFUSED, KOLBREES_TOO_LONG, 1, 1},
    {ON(IMPORT), KOLBREES_REFUSED, KOLBREES_OUTSIDE, 1, 1},
    {ON(IMPORT), KOLBREES_REFUSED, KOLBREES_UNKNOWN, 1, 1},
    {ON(IMPORT), KOLBREES_REFUSED, KOLBREES_WRONG_WIDTH, 1, 1},
    {ON(IMPORT), KOLBREES_REFUSED, KOLBREES_NOT_IN_BODY, 1, 1},
    {ON(IMPORT), KOLBREES_REFUSED, KOLBREES_NAMED_TWICE, 1, 1},
};

#define FORMS (sizeof forms / sizeof forms[0])

static bool met[FORMS][OPERATIONS];

static bool has(const struct form *form, enum operation operation)
{
    return (form->operations & ON(operation)) != 0;
}

static bool has_form(kolbrees_reply reply, const struct form *form)
{
    bool refused = form->word == KOLBREES_REFUSED;
    uint64_t ranging = refused ? reply.line : reply.count;
    uint64_t other = refused ? reply.count : reply.line;
    return reply.word == form->word && reply.number == form->number && form->least <= ranging &&
           ranging <= form->most && other == 0;
}

void check_reply(enum operation operation, kolbrees_reply reply)
{
    for (size_t i = 0; i < FORMS; i++) {
        if (has(&forms[i], operation) && has_form(reply, &forms[i])) {
            met[i][operation] = true;
            return;
        }
    }
    fault("%s: no such reply: word %" PRIu64 ", count %" PRIu64 ", number %" PRIu64
          ", line %" PRIu64,
          operation_names[operation], reply.word, reply.count, reply.number, reply.line);
}

static void check_met(const struct form *form, enum operation operation, bool was_met)
{
    if (!was_met) {
        fault("%s: not met: word %" PRIu64 ", number %" PRIu64 ", %s %" PRIu64 " to %" PRIu64,
              operation_names[operation], form->word, form->number,
              form->word == KOLBREES_REFUSED ? "line" : "count", form->least, form->most);
    }
    end_case();
}

void check_all_met(void)
{
    for (size_t i = 0; i < FORMS; i++) {
        for (enum operation operation = LOAD; operation < OPERATIONS; operation++) {
            if (has(&forms[i], operation)) {
                check_met(&forms[i], operation, met[i][operation]);
            }
        }
    }
}
