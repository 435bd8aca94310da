#include "papers.h"

#include <inttypes.h>
#include <string.h>

#include "calls.h"
#include "checks.h"
#include "replies.h"

#define TEXT(s) {(const uint8_t *)(s), sizeof(s) - 1}
#define NAMES "table terms\n"
#define QUERY(lines) TEXT(NAMES lines)
#define REFUSED(number, line) {KOLBREES_REFUSED, 0, number, line}
#define ACCEPTED {KOLBREES_ACCEPTED, 0, 0, 0}

/* Document 01's policy up to its tables, and from its views on. */
#define TABLES "table columns\n1 3\n2 2\n"
#define VIEWS "view table terms\n1 1 !1 !2 !3\n2 1 !1 !2 ?3\n3 2 !1 !2\n4 2 !1 #7\n"
#define PARTITIONS "partition views\n1 2 3\n2 1 4\n"

static const struct span first_text = TEXT(TABLES VIEWS PARTITIONS);
/* the same with a third table, which has no view */
static const struct span wider_text = TEXT(TABLES "3 1\n" VIEWS PARTITIONS);

static kolbrees_policy first, wider;
static const kolbrees_policy empty;

/* more bytes than any text may have, none of them a line end */
static uint8_t long_text[KOLBREES_MOST_POLICY_BYTES + 1];

/* A call, its reply, and for opening and deciding the session that it leaves. */
struct example {
    struct call call;
    kolbrees_reply reply;
    uint64_t session;
};

#define LOADING(s) {.operation = LOAD, .text = TEXT(s)}
#define DECIDING(open, lines) \
    {.operation = DECIDE, .policy = &first, .session = (open), .text = QUERY(lines)}
#define LISTING(o, n, lines, cells) \
    {.operation = (o), .policy = &first, .partition = (n), .text = QUERY(lines), .room = (cells)}
#define IMPORTING(rule, bytes, at) \
    {.operation = IMPORT, .policy = &first, .text = TEXT(rule), .room = (bytes), .place = (at)}
/* a call with the empty policy, which no loading gives */
#define UNLOADED(o) \
    {{.operation = (o), .policy = &empty}, REFUSED(KOLBREES_BAD_POLICY, 0), 0}

#define RULE "Q1(x, y) :- T1(x, y, z), T2(x, 7)\n"

static const struct example examples[] = {
    /* loading: "1: malformed line, wrong names line, empty block, or missing line end" and so on */
    {LOADING(TABLES VIEWS PARTITIONS), ACCEPTED, 0},
    {LOADING(""), REFUSED(KOLBREES_MALFORMED, 1), 0},
    {LOADING("table columns\nview table terms\n"), REFUSED(KOLBREES_MALFORMED, 2), 0},
    {LOADING(TABLES), REFUSED(KOLBREES_MALFORMED, 4), 0},
    {LOADING("table columns\n1 9\n"), REFUSED(KOLBREES_OUTSIDE, 2), 0},
    {LOADING("table columns\n2 3\n"), REFUSED(KOLBREES_OUT_OF_TURN, 2), 0},
    {LOADING(TABLES VIEWS "partition views\n1 3 2\n"), REFUSED(KOLBREES_OUT_OF_TURN, 10), 0},
    {LOADING(TABLES "view table terms\n1 3 !1\n"), REFUSED(KOLBREES_UNKNOWN, 5), 0},
    {LOADING(TABLES VIEWS "partition views\n1 5\n"), REFUSED(KOLBREES_UNKNOWN, 10), 0},
    {LOADING(TABLES "view table terms\n1 1 !1 !2\n"), REFUSED(KOLBREES_WRONG_WIDTH, 5), 0},
    {LOADING(TABLES "view table terms\n1 2 !1 ?1\n"), REFUSED(KOLBREES_SHOWN_AND_HIDDEN, 5), 0},
    {{.operation = LOAD, .text = {long_text, KOLBREES_MOST_POLICY_BYTES}},
     REFUSED(KOLBREES_MALFORMED, 1), 0},
    {{.operation = LOAD, .text = {long_text, KOLBREES_MOST_POLICY_BYTES + 1}},
     REFUSED(KOLBREES_TOO_LONG, 0), 0},

    /* opening: "Otherwise every partition is open" */
    {{.operation = OPEN, .policy = &first}, ACCEPTED, 3},
    UNLOADED(OPEN), UNLOADED(DECIDE), UNLOADED(LABELS), UNLOADED(EXPLAIN), UNLOADED(APART),
    UNLOADED(GRANT), UNLOADED(IMPORT),

    /* deciding: the output of the first file, and the sessions in between */
    {DECIDING(3, "1 !1 #4 ?2\n"), {KOLBREES_YES, 2, 0, 0}, 3},
    {DECIDING(3, "1 !1 #4 ?2\n2 !1 #7\n"), {KOLBREES_YES, 2, 0, 0}, 3},
    {DECIDING(3, "2 !1 ?2\n"), {KOLBREES_YES, 1, 0, 0}, 1},
    {DECIDING(1, "1 !1 !2 !3\n"), {KOLBREES_NO, 1, 0, 0}, 1},
    {DECIDING(1, "1 !1 !2\n"), REFUSED(KOLBREES_WRONG_WIDTH, 2), 1},
    {DECIDING(1, "1 !1 !2 ?3\n1 ?4 !2 ?3\n"), {KOLBREES_YES, 1, 0, 0}, 1},
    {DECIDING(0, "2 !1 ?2\n"), REFUSED(KOLBREES_BAD_SESSION, 0), 0},
    {DECIDING(4, "2 !1 ?2\n"), REFUSED(KOLBREES_BAD_SESSION, 0), 4},
    /* "variable 63 taken", "eight lines taken", the largest constant of document 02's request 4 */
    {DECIDING(3, "2 !63 #18446744073709551615\n"), {KOLBREES_YES, 1, 0, 0}, 1},
    {DECIDING(3, "2 !1 !2\n2 !1 !2\n2 !1 !2\n2 !1 !2\n2 !1 !2\n2 !1 !2\n2 !1 !2\n2 !1 !2\n"),
     {KOLBREES_YES, 1, 0, 0},
     1},

    /* labels and explanations: "10: the lent buffer is shorter than the list" */
    {LISTING(LABELS, 0, "1 !1 #4 ?2\n2 !1 #7\n", 2), {KOLBREES_GIVEN, 2, 0, 0}, 0},
    {LISTING(LABELS, 0, "1 !1 #4 ?2\n2 !1 #7\n", 1), REFUSED(KOLBREES_NO_ROOM, 0), 0},
    {LISTING(EXPLAIN, 1, "1 !1 #4 ?2\n2 !1 #7\n", 2), {KOLBREES_SETTLED, 2, 0, 0}, 0},
    {LISTING(EXPLAIN, 2, "2 !1 ?2\n", 1), {KOLBREES_UNSETTLED, 1, 0, 0}, 0},
    {LISTING(EXPLAIN, 2, "2 !1 ?2\n", 0), REFUSED(KOLBREES_NO_ROOM, 0), 0},
    {LISTING(EXPLAIN, 0, "2 !1 ?2\n", 8), REFUSED(KOLBREES_UNKNOWN, 0), 0},
    {LISTING(EXPLAIN, 3, "2 !1 ?2\n", 8), REFUSED(KOLBREES_UNKNOWN, 0), 0},

    /* two archives: "10 is met by a buffer of under 360 numbers, settled or not" */
    {LISTING(APART, 1, "1 !1 !2 !3\n", 360), {KOLBREES_APART, 2, 0, 0}, 0},
    {LISTING(APART, 2, "2 !1 ?2\n", 361), {KOLBREES_APART, 1, 0, 0}, 0},
    {LISTING(APART, 1, "1 !1 #4 ?2\n", 360), {KOLBREES_SETTLED, 0, 0, 0}, 0},
    {LISTING(APART, 1, "1 !1 #4 ?2\n", 359), REFUSED(KOLBREES_NO_ROOM, 0), 0},
    {LISTING(APART, 2, "2 !1 ?2\n", 359), REFUSED(KOLBREES_NO_ROOM, 0), 0},
    {LISTING(APART, 3, "2 !1 ?2\n", 360), REFUSED(KOLBREES_UNKNOWN, 0), 0},

    /* the smallest grant: "A settled query gives the empty list"; "If some label holds no view, the
     * reply is `none`" */
    {LISTING(GRANT, 1, "1 !1 !2 !3\n", 1), {KOLBREES_GIVEN, 1, 0, 0}, 0},
    {LISTING(GRANT, 1, "1 !1 #4 ?2\n", 0), {KOLBREES_GIVEN, 0, 0, 0}, 0},
    {LISTING(GRANT, 1, "1 !1 !2 !3\n", 0), REFUSED(KOLBREES_NO_ROOM, 0), 0},
    {LISTING(GRANT, 3, "2 !1 ?2\n", 8), REFUSED(KOLBREES_UNKNOWN, 0), 0},
    {{.operation = GRANT, .policy = &wider, .partition = 1, .text = QUERY("3 !1\n")},
     {KOLBREES_NONE, 0, 0, 0},
     0},

    /* rules: each number over the whole rule, "10 comes last" */
    {IMPORTING(RULE, 31, 0), {KOLBREES_WRITTEN, 31, 0, 0}, 0},
    {IMPORTING(RULE, 40, 9), {KOLBREES_WRITTEN, 31, 0, 0}, 0},
    {IMPORTING(RULE, 31, 1), REFUSED(KOLBREES_NO_ROOM, 0), 0},
    {IMPORTING(RULE, 31, 32), REFUSED(KOLBREES_NO_ROOM, 0), 0},
    {IMPORTING("Q1() :- T2(x, x)\n", 20, 0), {KOLBREES_WRITTEN, 20, 0, 0}, 0},
    {IMPORTING("Q1(7) :- T2(x, y)\n", 99, 0), REFUSED(KOLBREES_MALFORMED, 1), 0},
    {IMPORTING("Q() :- T2(x, x), T2(x, x), T2(x, x), T2(x, x), T2(x, x), T2(x, x), T2(x, x), "
               "T2(x, x), T2(x, x)\n",
               999, 0),
     REFUSED(KOLBREES_TOO_LONG, 1),
     0},
    {IMPORTING("Q() :- T17(x)\n", 99, 0), REFUSED(KOLBREES_OUTSIDE, 1), 0},
    {IMPORTING("Q() :- T3(x)\n", 99, 0), REFUSED(KOLBREES_UNKNOWN, 1), 0},
    {IMPORTING("Q() :- T2(x)\n", 99, 0), REFUSED(KOLBREES_WRONG_WIDTH, 1), 0},
    {IMPORTING("Q(z) :- T2(x, y)\n", 99, 0), REFUSED(KOLBREES_NOT_IN_BODY, 1), 0},
    {IMPORTING("Q(x, x) :- T2(x, y)\n", 99, 0), REFUSED(KOLBREES_NAMED_TWICE, 1), 0},
    {{.operation = IMPORT, .policy = &first, .text = {long_text, KOLBREES_MOST_QUERY_BYTES}},
     REFUSED(KOLBREES_MALFORMED, 1), 0},
    {{.operation = IMPORT, .policy = &first, .text = {long_text, KOLBREES_MOST_QUERY_BYTES + 1}},
     REFUSED(KOLBREES_TOO_LONG, 0), 0},
};

/* What turns a query text back, in each operation that takes one. */
static const struct {
    struct span text;
    uint64_t number, line;
} refused_queries[] = {
    {TEXT(""), KOLBREES_MALFORMED, 1},
    {TEXT("2 !1 !2\n"), KOLBREES_MALFORMED, 1},
    {QUERY(""), KOLBREES_MALFORMED, 2},
    {QUERY("2 !1 !2"), KOLBREES_MALFORMED, 2},
    {QUERY("2\n"), KOLBREES_MALFORMED, 2},
    {QUERY("2 !1 #123456789012345678901\n"), KOLBREES_MALFORMED, 2},
    {QUERY("2 !1 #18446744073709551616\n"), KOLBREES_OUTSIDE, 2},
    {QUERY("2 !1 !64\n"), KOLBREES_OUTSIDE, 2},
    {QUERY("17 !1 !2\n"), KOLBREES_OUTSIDE, 2},
    {QUERY("3 !1 !2\n"), KOLBREES_UNKNOWN, 2},
    {QUERY("1 !1 !2\n"), KOLBREES_WRONG_WIDTH, 2},
    {QUERY("2 !1 ?1\n"), KOLBREES_SHOWN_AND_HIDDEN, 2},
    {QUERY("2 !1 ?2\n2 !2 !3\n"), KOLBREES_SHOWN_AND_HIDDEN, 3},
    {QUERY("2 !1 !2\n2 !1 !2\n2 !1 !2\n2 !1 !2\n2 !1 !2\n2 !1 !2\n2 !1 !2\n2 !1 !2\n2 !1 !2\n"),
     KOLBREES_TOO_LONG, 10},
    {{long_text, KOLBREES_MOST_QUERY_BYTES}, KOLBREES_MALFORMED, 1},
    {{long_text, KOLBREES_MOST_QUERY_BYTES + 1}, KOLBREES_TOO_LONG, 0},
};

/* Lists in numbers of 64 bits. */
static const struct {
    struct call call;
    uint64_t list[2];
} lists[] = {
    {LISTING(LABELS, 0, "1 !1 #4 ?2\n2 !1 #7\n", 8), {12884901889, 51539607554}},
    {LISTING(LABELS, 0, "1 !1 #4 ?2\n1 !3 #5 ?2\n", 8), {4294967297, 4294967297}},
    {LISTING(EXPLAIN, 1, "1 !1 #4 ?2\n2 !1 #7\n", 8), {2, 4}},
    {LISTING(EXPLAIN, 2, "2 !1 ?2\n", 8), {4, 0}},
    {LISTING(GRANT, 1, "1 !1 !2 !3\n", 8), {1, 0}},
    {LISTING(GRANT, 2, "2 !1 #8\n", 8), {3, 0}},
};

/* Document 01's order of labels, with request 7 of document 02. */
static const struct {
    uint64_t x, y;
    bool below;
} comparisons[] = {
    {12884901889, 4294967297, true},   {4294967297, 12884901889, false},
    {12884901889, 17179869186, false}, {17179869186, 12884901889, false},
    {12884901889, 3, true},            {3, 12884901889, false},
    {1, 2, true},                      {2, 1, true},
};

static void check_reply_is(const struct call *call, kolbrees_reply got, kolbrees_reply expected)
{
    if (memcmp(&got, &expected, sizeof got) != 0) {
        int length = call->text.length < 80 ? (int)call->text.length : 80;
        fault("%s: word %" PRIu64 ", count %" PRIu64 ", number %" PRIu64 ", line %" PRIu64
              ", not %" PRIu64 ", %" PRIu64 ", %" PRIu64 ", %" PRIu64 ", of the text\n%.*s",
              operation_names[call->operation], got.word, got.count, got.number, got.line,
              expected.word, expected.count, expected.number, expected.line, length,
              (const char *)call->text.bytes);
    }
}

static void check_example(const struct example *example)
{
    struct outcome outcome = perform(&example->call);
    check_reply_is(&example->call, outcome.reply, example->reply);
    if (outcome.session != example->session) {
        fault("%s: session %" PRIu64 ", not %" PRIu64, operation_names[example->call.operation],
              outcome.session, example->session);
    }
    end_case();
}

/* Session 3 and partition 1 are as good as any, and so is the room. */
static void check_refused_query(enum operation operation, size_t row)
{
    struct call call = {.operation = operation,
                        .policy = &first,
                        .session = 3,
                        .partition = 1,
                        .text = refused_queries[row].text,
                        .room = KOLBREES_MOST_APART_CELLS};
    kolbrees_reply expected = REFUSED(refused_queries[row].number, refused_queries[row].line);
    check_reply_is(&call, perform(&call).reply, expected);
    end_case();
}

static void check_list(size_t row)
{
    struct outcome outcome = perform(&lists[row].call);
    for (size_t i = 0; i < outcome.reply.count; i++) {
        bool wide = lists[row].call.operation == LABELS;
        uint64_t got = wide ? outcome.list.numbers[i] : outcome.list.words[i];
        if (i >= 2 || got != lists[row].list[i]) {
            fault("%s: %" PRIu64 " at %zu of list %zu",
                  operation_names[lists[row].call.operation], got, i, row);
        }
    }
    end_case();
}

/* The first row is the odd one: "Each row is nine 64-bit numbers: the table, then eight values,
 * unused ones 0". */
static void check_rows(void)
{
    struct call call = LISTING(APART, 1, "1 !1 !2 !3\n", 360);
    struct outcome outcome = perform(&call);
    for (size_t row = 0; row < outcome.reply.count; row++) {
        const uint64_t *cells = outcome.list.numbers + row * KOLBREES_ROW_CELLS;
        same_number("the table of a row", cells[0], 1);
        for (size_t unused = 4; unused < KOLBREES_ROW_CELLS; unused++) {
            same_number("an unused value of a row", cells[unused], 0);
        }
    }
}

static void check_imported(void)
{
    static const char expected[] = NAMES "1 !0 !1 ?2\n2 !0 #7\n";
    struct call call = IMPORTING(RULE, 40, 9);
    struct outcome outcome = perform(&call);
    if (outcome.bytes != sizeof expected - 1 ||
        memcmp(outcome.list.text, expected, outcome.bytes) != 0) {
        fault("import: %.*s", (int)outcome.bytes, (const char *)outcome.list.text);
    }
    end_case();
}

static void check_comparisons(void)
{
    for (size_t i = 0; i < sizeof comparisons / sizeof comparisons[0]; i++) {
        same_number("whether a label is at or below another",
                    kolbrees_compare(comparisons[i].x, comparisons[i].y), comparisons[i].below);
    }
}

static kolbrees_policy loaded(struct span text)
{
    struct call call = {.operation = LOAD, .text = text};
    return perform(&call).policy;
}

void check_papers(void)
{
    memset(long_text, '1', sizeof long_text);
    first = loaded(first_text);
    wider = loaded(wider_text);
    for (size_t i = 0; i < sizeof examples / sizeof examples[0]; i++) {
        check_example(&examples[i]);
    }
    for (enum operation operation = DECIDE; operation <= GRANT; operation++) {
        for (size_t i = 0; i < sizeof refused_queries / sizeof refused_queries[0]; i++) {
            check_refused_query(operation, i);
        }
    }
    for (size_t i = 0; i < sizeof lists / sizeof lists[0]; i++) {
        check_list(i);
    }
    check_rows();
    check_imported();
    check_comparisons();
    check_all_met();
}
