#include "calls.h"

#include <string.h>

#include "bits.h"
#include "checks.h"
#include "lent.h"
#include "replies.h"

const char *const operation_names[OPERATIONS] = {"load",    "open",  "decide", "labels",
                                                 "explain", "apart", "grant",  "import"};

/* Bytes of a cell of the lent buffer; 0 where there is none. */
static const size_t cell_sizes[OPERATIONS] = {
    [LABELS] = sizeof(uint64_t), [EXPLAIN] = sizeof(uint32_t), [APART] = sizeof(uint64_t),
    [GRANT] = sizeof(uint32_t),  [IMPORT] = sizeof(uint8_t),
};

/* The call of an operation that writes to the lent buffer. */
static kolbrees_reply listing(const struct call *call, const uint8_t *text, void *out)
{
    kolbrees_policy policy = *call->policy;
    size_t length = call->text.length;
    switch (call->operation) {
    case LABELS:
        return kolbrees_labels(policy, text, length, out, call->room);
    case EXPLAIN:
        return kolbrees_explain(policy, call->partition, text, length, out, call->room);
    case APART:
        return kolbrees_apart(policy, call->partition, text, length, out, call->room);
    case GRANT:
        return kolbrees_grant(policy, call->partition, text, length, out, call->room);
    default:
        return kolbrees_import(policy, text, length, out, call->room, call->place);
    }
}

static struct outcome dispatch(const struct call *call, const uint8_t *text, void *out)
{
    struct outcome outcome = {.bytes = 0};
    if (call->operation == LOAD) {
        kolbrees_loading loading = kolbrees_load(text, call->text.length);
        outcome.reply = loading.reply;
        outcome.policy = loading.policy;
    } else if (call->operation == OPEN) {
        kolbrees_opening opening = kolbrees_open(*call->policy);
        outcome.reply = opening.reply;
        outcome.session = opening.session.mask;
    } else if (call->operation == DECIDE) {
        kolbrees_decision decision = kolbrees_decide(
            *call->policy, (kolbrees_session){call->session}, text, call->text.length);
        outcome.reply = decision.reply;
        outcome.session = decision.session.mask;
    } else {
        outcome.reply = listing(call, text, out);
    }
    return outcome;
}

/* The bytes of the buffer that a reply says are written. */
static size_t bytes_written(const struct call *call, kolbrees_reply reply)
{
    if (reply.word == KOLBREES_APART) {
        return reply.count * KOLBREES_ROW_CELLS * cell_sizes[APART];
    }
    return reply.count * cell_sizes[call->operation];
}

/* Keeps the part of the buffer that is written, and looks at the others. */
static void keep_list(const struct call *call, const uint8_t *buffer, uint8_t filler,
                      struct outcome *outcome)
{
    size_t length = call->room * cell_sizes[call->operation];
    size_t bytes = bytes_written(call, outcome->reply);
    size_t place = bytes == 0 ? 0 : call->place;
    if (place > length || bytes > length - place || bytes > sizeof outcome->list) {
        fault("%s: the reply counts more than there is room for", operation_names[call->operation]);
        return;
    }
    if (!stayed(buffer, length, filler, place, bytes)) {
        fault("%s: bytes beside the list are written", operation_names[call->operation]);
    }
    outcome->bytes = bytes;
    memcpy(&outcome->list, buffer + place, bytes);
}

static struct outcome perform_once(const struct call *call, uint8_t filler)
{
    struct span text = call->text;
    uint8_t *lent_text = lend(LENT_TEXT, text.length, filler);
    uint8_t *buffer = lend(LENT_BUFFER, call->room * cell_sizes[call->operation], filler);
    if (text.length > 0) {
        memcpy(lent_text, text.bytes, text.length);
    }
    struct outcome outcome = dispatch(call, lent_text, buffer);
    if (!stayed(lent_text, text.length, filler, 0, text.length) ||
        (text.length > 0 && memcmp(lent_text, text.bytes, text.length) != 0)) {
        fault("%s: the text is written", operation_names[call->operation]);
    }
    keep_list(call, buffer, filler, &outcome);
    return outcome;
}

static bool same_outcome(const struct outcome *a, const struct outcome *b)
{
    return memcmp(&a->reply, &b->reply, sizeof a->reply) == 0 && a->session == b->session &&
           memcmp(&a->policy, &b->policy, sizeof a->policy) == 0 && a->bytes == b->bytes &&
           memcmp(&a->list, &b->list, a->bytes) == 0;
}

/* The policy beside a refused text is the empty one, and the session beside a refused policy. A yes
 * alone alters a session, and takes partitions out of it. */
static void check_values(const struct call *call, const struct outcome *outcome)
{
    static const kolbrees_policy empty;
    bool refused = outcome->reply.word == KOLBREES_REFUSED;
    bool yes = outcome->reply.word == KOLBREES_YES;
    uint64_t before = call->operation == DECIDE ? call->session : 0;
    if (refused && memcmp(&outcome->policy, &empty, sizeof empty) != 0) {
        fault("%s: a policy beside a refusal", operation_names[call->operation]);
    }
    if (call->operation == OPEN && !refused) {
        before = (UINT64_C(1) << call->policy->partition_count) - 1;
    }
    if (yes ? (outcome->session & ~before) != 0 : outcome->session != before) {
        fault("%s: the session is another one", operation_names[call->operation]);
    }
    if (call->operation == DECIDE && !refused && outcome->reply.count != ones(outcome->session)) {
        fault("decide: the count is not that of the partitions left open");
    }
}

struct outcome perform(const struct call *call)
{
    struct outcome first = perform_once(call, 0xA5);
    struct outcome second = perform_once(call, 0x5A);
    if (!same_outcome(&first, &second)) {
        fault("%s: called twice it gives two replies", operation_names[call->operation]);
    }
    check_reply(call->operation, first.reply);
    check_values(call, &first);
    return first;
}
