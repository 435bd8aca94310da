/* The query desk of the meter archive, for C and C++ on x86-64 Linux.
 *
 * Each function is an operation of document 01 or 02. It takes any bytes and any values, and gives
 * the one reply that is laid down there. docs/MANUAL.md has the texts and what turns them back
 * (section 5), and the operations with examples (section 6).
 *
 * The caller owns everything. Policies, sessions and replies are values: copy them, keep them,
 * write them to a file. Texts and buffers are lent for the time of a call, and a text is never
 * written. Nothing is kept between calls and nothing is allocated, so calls may run in parallel.
 *
 * No pointer may be null, not even where the length or the room is 0, and the text and the buffer
 * of a call must not overlap. A call takes less than 64 KB of stack. */

#ifndef KOLBREES_H
#define KOLBREES_H

#include <stdbool.h>
#include <stddef.h>
#include <stdint.h>

#ifdef __cplusplus
extern "C" {
#endif

/* The version of these functions and structs; kolbrees_version tells the library's own. */
#define KOLBREES_VERSION 1

/* Document 01's limits, and what they leave for buffers. */
#define KOLBREES_MOST_TABLES 16
#define KOLBREES_MOST_COLUMNS 8
#define KOLBREES_MOST_LINES 8 /* of a query; a list of labels, words or views has no more numbers */
#define KOLBREES_MOST_VIEWS 32
#define KOLBREES_MOST_PARTITIONS 32
#define KOLBREES_MOST_POLICY_BYTES 16384
#define KOLBREES_MOST_QUERY_BYTES 4096 /* of a rule too; the text that a rule becomes has fewer */
#define KOLBREES_ROW_CELLS 9           /* a row: the table, then eight values, unused ones 0 */
#define KOLBREES_MOST_APART_CELLS 360  /* forty rows */

/* ---- replies ---- */

/* What a reply says, and what it counts; where nothing is named the count is 0. */
enum kolbrees_word {
    KOLBREES_REFUSED = 0,   /* any operation: number and line say why */
    KOLBREES_ACCEPTED = 1,  /* load, open */
    KOLBREES_YES = 2,       /* decide: the partitions still open */
    KOLBREES_NO = 3,        /* decide: the partitions still open */
    KOLBREES_GIVEN = 4,     /* labels, grant: the numbers of the list */
    KOLBREES_SETTLED = 5,   /* explain: the words of the list; apart */
    KOLBREES_UNSETTLED = 6, /* explain: the words of the list */
    KOLBREES_APART = 7,     /* apart: the rows */
    KOLBREES_NONE = 8,      /* grant: no views of the policy will do */
    KOLBREES_WRITTEN = 9    /* import: the bytes */
};

/* The numbers of refusals. A text refusal has a line, the first line 1; any other has line 0. */
enum kolbrees_refusal {
    KOLBREES_MALFORMED = 1,   /* malformed line, wrong names line, empty block, missing line end */
    KOLBREES_OUTSIDE = 2,     /* a number outside its limits */
    KOLBREES_OUT_OF_TURN = 3, /* a table, view or partition out of turn, or views not ascending */
    KOLBREES_UNKNOWN = 4,     /* an unknown table or view; at line 0: no such partition */
    KOLBREES_WRONG_WIDTH = 5, /* terms fewer or more than the columns */
    KOLBREES_SHOWN_AND_HIDDEN = 6, /* one variable number both shown and hidden */
    KOLBREES_TOO_LONG = 7,         /* at line 0: text too long; else a ninth line or atom */
    KOLBREES_BAD_POLICY = 8,       /* a policy value that no loading gives */
    KOLBREES_BAD_SESSION = 9,      /* a session with none open, or one beyond the policy's */
    KOLBREES_NO_ROOM = 10,         /* the lent buffer is shorter than the list or the text */
    KOLBREES_NOT_IN_BODY = 11,     /* the head of a rule names a variable that the body lacks */
    KOLBREES_NAMED_TWICE = 12      /* the head of a rule names a variable twice */
};

/* A refusal has its number and line, and the count 0; every other word has number 0 and line 0. */
typedef struct {
    uint64_t word, count, number, line;
} kolbrees_reply;

/* ---- policies and sessions ---- */

enum kolbrees_mark {
    KOLBREES_UNUSED = 0,
    KOLBREES_CONSTANT = 1, /* # */
    KOLBREES_SHOWN = 2,    /* ! */
    KOLBREES_HIDDEN = 3    /* ? */
};

typedef struct {
    uint64_t mark, number;
} kolbrees_term;

typedef struct {
    uint64_t table;
    kolbrees_term terms[KOLBREES_MOST_COLUMNS];
} kolbrees_line;

typedef struct {
    uint64_t count;
    uint64_t columns[KOLBREES_MOST_TABLES];
} kolbrees_tables;

/* Table n and view n stand at index n - 1, and all behind the last are 0. The grants of a view are
 * the partitions that list it, partition n at bit n - 1. */
typedef struct {
    kolbrees_tables tables;
    uint64_t view_count;
    kolbrees_line views[KOLBREES_MOST_VIEWS];
    uint64_t partition_count;
    uint64_t grants[KOLBREES_MOST_VIEWS];
} kolbrees_policy;

/* The partitions still open, partition n at bit n - 1. */
typedef struct {
    uint64_t mask;
} kolbrees_session;

typedef struct {
    kolbrees_reply reply;
    kolbrees_policy policy;
} kolbrees_loading;

typedef struct {
    kolbrees_reply reply;
    kolbrees_session session;
} kolbrees_opening;

typedef struct {
    kolbrees_reply reply;
    kolbrees_session session;
} kolbrees_decision;

/* ---- operations ----
 *
 * A list stands at the head of the lent buffer, which has `room` cells. Cells past it stay as they
 * were, and on a refusal all do. What turns a call back is named in the order of the checks. */

/* Loading: the policy of a text; beside a refusal the empty one, all 0.
 * Refused by 7 at line 0, then line by line 1, 2, 3, 4, 5, 6. */
kolbrees_loading kolbrees_load(const uint8_t *text, size_t length);

/* Opening: a session with every partition open; beside a refusal with none.
 * Refused by 8. */
kolbrees_opening kolbrees_open(kolbrees_policy policy);

/* Deciding a query text: yes or no, and the session as the call leaves it. A yes keeps open only
 * the partitions that settle the query; after a no or a refusal it is the session handed in.
 * Refused by 8, 9, then the text: 7 at line 0, then line by line 1, 7, 2, 4, 5, 6. */
kolbrees_decision kolbrees_decide(kolbrees_policy policy, kolbrees_session session,
                                  const uint8_t *text, size_t length);

/* Labels of a query text, one for each line of the reduced query, ascending: the low 32 bits hold
 * the table number and the high 32 bits the views, view n at bit 31 + n.
 * Refused by 8, the text as in deciding, 10. */
kolbrees_reply kolbrees_labels(kolbrees_policy policy, const uint8_t *text, size_t length,
                               uint64_t *out, size_t room);

/* Explaining, for a query text and a partition. Settled: each label's views that are granted.
 * Unsettled: the views of each label that holds no granted view, without repeats and without any
 * word that strictly includes another; a word 0 means that no view would do. View n at bit n - 1;
 * words ascend.
 * Refused by 8, 4 at line 0, the text as in deciding, 10. */
kolbrees_reply kolbrees_explain(kolbrees_policy policy, uint64_t partition, const uint8_t *text,
                                size_t length, uint32_t *out, size_t room);

/* Comparing labels, any two words: x is at or below y when y has no view, or when their low halves
 * are equal and x's high bits include all of y's. */
bool kolbrees_compare(uint64_t x, uint64_t y);

/* Two archives behind a no, for a query text and a partition: rows of KOLBREES_ROW_CELLS numbers.
 * The first archive has all of them, the second lacks the first row; they agree on every view of
 * the partition, and the query's answers differ. Settled: no row.
 * Refused by 8, 4 at line 0, the text as in deciding, 10: fewer than KOLBREES_MOST_APART_CELLS
 * cells, settled or not. */
kolbrees_reply kolbrees_apart(kolbrees_policy policy, uint64_t partition, const uint8_t *text,
                              size_t length, uint64_t *out, size_t room);

/* The smallest extra grant, for a query text and a partition: the fewest views whose addition makes
 * the partition settle the query, ascending; the empty list where it does already.
 * Refused by 8, 4 at line 0, the text as in deciding, 10 where there is a list to write. */
kolbrees_reply kolbrees_grant(kolbrees_policy policy, uint64_t partition, const uint8_t *text,
                              size_t length, uint32_t *out, size_t room);

/* Importing a rule, one line as the papers print it: its query text is written to the buffer of
 * `room` bytes from the place on, and all other bytes stay.
 * Refused by 8, 7 at line 0, then at line 1 by 1, 7, 2, 4, 5, 11, 12, last 10. */
kolbrees_reply kolbrees_import(kolbrees_policy policy, const uint8_t *rule, size_t length,
                               uint8_t *out, size_t room, size_t place);

/* The version of the library. Where it is another than KOLBREES_VERSION, call nothing else. */
uint64_t kolbrees_version(void);

/* What the library was built with, to be compared with this header where the two may come from
 * different places. Sizes are in bytes. */
typedef struct {
    uint64_t version;
    uint64_t policy_size, session_size, reply_size, loading_size, opening_size, decision_size;
    uint64_t most_tables, most_columns, most_lines, most_views, most_partitions;
    uint64_t most_policy_bytes, most_apart_cells;
} kolbrees_facts;

kolbrees_facts kolbrees_about(void);

#ifdef __cplusplus
}
#endif

#endif
