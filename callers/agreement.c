#include "agreement.h"

#include <inttypes.h>
#include <string.h>

#include "checks.h"
#include "oracle.h"

/* longer grants are not tried out */
#define MOST_TRIED 4

/* ---- what turns a call back before its text is looked at ---- */

static bool is_open(const kolbrees_policy *policy, uint64_t session)
{
    return session != 0 && session >> policy->partition_count == 0;
}

/* The number, or 0 where nothing does. */
static uint64_t first_refusal(const struct call *call)
{
    bool partition_asked =
        call->operation == EXPLAIN || call->operation == APART || call->operation == GRANT;
    if (!is_policy(call->policy)) {
        return KOLBREES_BAD_POLICY;
    }
    if (call->operation == DECIDE && !is_open(call->policy, call->session)) {
        return KOLBREES_BAD_SESSION;
    }
    if (partition_asked &&
        (call->partition < 1 || call->partition > call->policy->partition_count)) {
        return KOLBREES_UNKNOWN;
    }
    return 0;
}

/* Such a refusal names no line, unlike 4 of a text. */
static uint64_t early_number(kolbrees_reply reply)
{
    bool early = reply.line == 0 &&
                 (reply.number == KOLBREES_BAD_POLICY || reply.number == KOLBREES_BAD_SESSION ||
                  reply.number == KOLBREES_UNKNOWN);
    return early ? reply.number : 0;
}

struct outcome attempt(const struct call *call)
{
    struct outcome outcome = perform(call);
    uint64_t expected = first_refusal(call);
    if (early_number(outcome.reply) != expected) {
        fault("%s: refused by %" PRIu64 ", not %" PRIu64, operation_names[call->operation],
              outcome.reply.number, expected);
    }
    return outcome;
}

/* ---- one query under one policy ---- */

/* A loaded policy, a partition of it, a query text, and its labels. */
struct question {
    const kolbrees_policy *policy;
    uint64_t partition;
    struct span query;
    struct outcome labels;
};

/* An operation other than deciding, with room for all that it may give. */
static struct outcome ask(const struct question *q, enum operation operation)
{
    bool bytes = operation == IMPORT;
    struct call call = {.operation = operation,
                        .policy = q->policy,
                        .partition = q->partition,
                        .text = q->query,
                        .room = bytes ? KOLBREES_MOST_QUERY_BYTES : KOLBREES_MOST_APART_CELLS};
    return attempt(&call);
}

static void differ(const struct question *q, const char *what)
{
    fault("%s, partition %" PRIu64 ", of the query\n%.*s", what, q->partition, (int)q->query.length,
          (const char *)q->query.bytes);
}

static bool same_reply(kolbrees_reply a, kolbrees_reply b)
{
    return memcmp(&a, &b, sizeof a) == 0;
}

/* Whether the partition settles the query by its explanation, which must be that of the labels. */
static bool explained(const struct question *q)
{
    struct outcome outcome = ask(q, EXPLAIN);
    const uint64_t *labels = q->labels.list.numbers;
    size_t count = q->labels.reply.count;
    uint32_t views = granted_views(q->policy, q->partition);
    uint32_t words[KOLBREES_MOST_LINES];
    size_t given = explanation(views, labels, count, words);
    bool settled = outcome.reply.word == KOLBREES_SETTLED;
    if (settled != settles(views, labels, count) || outcome.reply.count != given ||
        memcmp(outcome.list.words, words, given * sizeof words[0]) != 0) {
        differ(q, "the explanation is not that of the labels");
    }
    return settled;
}

static bool some_label_without_view(const struct question *q)
{
    for (size_t i = 0; i < q->labels.reply.count; i++) {
        if (q->labels.list.numbers[i] >> 32 == 0) {
            return true;
        }
    }
    return false;
}

/* The list as a word, view n at bit 32 - n; 0 where the numbers do not ascend. */
static uint32_t list_word(const struct outcome *grant)
{
    uint32_t word = 0;
    for (size_t i = 0; i < grant->reply.count; i++) {
        uint32_t view = grant->list.words[i];
        if (view < 1 || view > 32 || (i > 0 && view <= grant->list.words[i - 1])) {
            return 0;
        }
        word |= UINT32_C(1) << (32 - view);
    }
    return word;
}

/* Up to MOST_TRIED views have to be those that are found by trying. */
static void check_grant(const struct question *q)
{
    struct outcome grant = ask(q, GRANT);
    uint32_t views = granted_views(q->policy, q->partition);
    uint32_t expected = 0;
    bool none = grant.reply.word == KOLBREES_NONE;
    bool found =
        smallest_grant(views, q->labels.list.numbers, q->labels.reply.count, MOST_TRIED, &expected);
    if (none != some_label_without_view(q)) {
        differ(q, "none is given for another reason");
    } else if (!none && found != (grant.reply.count <= MOST_TRIED)) {
        differ(q, "a grant of another length would do");
    } else if (!none && found && list_word(&grant) != expected) {
        differ(q, "another grant comes first");
    }
}

static bool same_row(const uint64_t *a, const uint64_t *b)
{
    return memcmp(a, b, KOLBREES_ROW_CELLS * sizeof a[0]) == 0;
}

/* "no row stands twice"; each is one of a table of the policy, unused values 0 */
static void check_rows(const struct question *q, const struct outcome *apart)
{
    const kolbrees_tables *tables = &q->policy->tables;
    for (size_t i = 0; i < apart->reply.count; i++) {
        const uint64_t *row = apart->list.numbers + i * KOLBREES_ROW_CELLS;
        if (row[0] < 1 || row[0] > tables->count) {
            differ(q, "a row of no table");
            return;
        }
        for (uint64_t p = tables->columns[row[0] - 1] + 1; p < KOLBREES_ROW_CELLS; p++) {
            if (row[p] != 0) {
                differ(q, "an unused value that is not 0");
            }
        }
        for (size_t j = 0; j < i; j++) {
            if (same_row(row, apart->list.numbers + j * KOLBREES_ROW_CELLS)) {
                differ(q, "a row stands twice");
            }
        }
    }
}

static void check_partition(const struct question *q)
{
    bool settled = explained(q);
    struct outcome apart = ask(q, APART);
    if ((apart.reply.word == KOLBREES_SETTLED) != settled) {
        differ(q, "telling apart and explaining differ");
    }
    check_rows(q, &apart);
    check_grant(q);
}

/* The partitions whose explanations say that they settle the query. */
static uint64_t settling(struct question q)
{
    uint64_t partitions = 0;
    for (q.partition = 1; q.partition <= q.policy->partition_count; q.partition++) {
        partitions |= (uint64_t)explained(&q) << (q.partition - 1);
    }
    return partitions;
}

/* "The decision keeps open only those that settle the query; if none would be left the answer is no
 * and the session stays." */
static void check_decision(const struct question *q, uint64_t session)
{
    struct call call = {
        .operation = DECIDE, .policy = q->policy, .session = session, .text = q->query};
    struct outcome decision = attempt(&call);
    if (!is_open(q->policy, session)) {
        return;
    }
    if (q->labels.reply.word == KOLBREES_REFUSED) {
        if (!same_reply(decision.reply, q->labels.reply)) {
            differ(q, "deciding and labels are refused otherwise");
        }
        return;
    }
    uint64_t left = session & settling(*q);
    bool yes = decision.reply.word == KOLBREES_YES;
    if (yes != (left != 0) || decision.session != (yes ? left : session)) {
        differ(q, "deciding and explaining differ");
    }
}

/* What turns a text back turns it back in every operation. */
static void check_refused(const struct question *q)
{
    for (enum operation operation = EXPLAIN; operation <= GRANT; operation++) {
        if (!same_reply(ask(q, operation).reply, q->labels.reply)) {
            differ(q, "a text is refused otherwise");
        }
    }
}

void check_query(const kolbrees_policy *policy, uint64_t partition, uint64_t session,
                 struct span query)
{
    struct question q = {.policy = policy, .partition = partition, .query = query};
    q.labels = ask(&q, LABELS);
    if (q.labels.reply.word == KOLBREES_REFUSED) {
        check_refused(&q);
    } else {
        check_partition(&q);
    }
    check_decision(&q, session);
}

void check_rule(const kolbrees_policy *policy, struct span rule)
{
    struct question q = {.policy = policy, .query = rule};
    struct outcome imported = ask(&q, IMPORT);
    if (imported.reply.word == KOLBREES_WRITTEN) {
        q.query = (struct span){imported.list.text, imported.bytes};
        if (ask(&q, LABELS).reply.word != KOLBREES_GIVEN) {
            differ(&q, "the text of a rule is refused");
        }
    }
}
