/* Ten thousand cases by chance, the same in every run: policies, queries and rules as they are and
 * damaged, damaged policy values and sessions, partitions that there are not, and buffers of any
 * length. What is looked at stands in calls.h and agreement.h. */

#include <inttypes.h>
#include <stdio.h>
#include <stdlib.h>
#include <string.h>

#include "agreement.h"
#include "calls.h"
#include "checks.h"
#include "oracle.h"
#include "replies.h"
#include "texts.h"

#define CASES 10000
/* so many cases have one policy in turn */
#define CASES_OF_A_POLICY 10

/* A damaged text that still loads gives a policy value, too. */
static void try_policy_text(struct chance *chance)
{
    struct text text;
    make_policy(chance, &text);
    damage(chance, &text);
    struct call call = {.operation = LOAD, .text = span_of(&text)};
    struct outcome loading = perform(&call);
    if (loading.reply.word == KOLBREES_ACCEPTED && !is_policy(&loading.policy)) {
        fault("load: a policy value that no loading gives, of the text\n%.*s", (int)text.length,
              (const char *)text.bytes);
    }
}

static void damage_value(struct chance *chance, kolbrees_policy *policy)
{
    uint64_t cells[sizeof *policy / sizeof(uint64_t)];
    memcpy(cells, policy, sizeof cells);
    uint64_t *cell = &cells[below(chance, sizeof cells / sizeof cells[0])];
    switch (below(chance, 4)) {
    case 0:
        *cell = any(chance);
        break;
    case 1:
        *cell ^= UINT64_C(1) << below(chance, 64);
        break;
    case 2:
        *cell = below(chance, 65);
        break;
    default:
        *cell += 1;
        break;
    }
    memcpy(policy, cells, sizeof cells);
}

static uint64_t some_session(struct chance *chance, const kolbrees_policy *policy)
{
    uint64_t every = (UINT64_C(1) << policy->partition_count) - 1;
    uint64_t some = any(chance) & every;
    return odds(chance, 90) ? (some != 0 ? some : every) : any(chance) & any(chance) & any(chance);
}

static uint64_t some_partition(struct chance *chance, const kolbrees_policy *policy)
{
    switch (below(chance, 30)) {
    case 0:
        return 0;
    case 1:
        return policy->partition_count + 1;
    case 2:
        return any(chance);
    default:
        return 1 + below(chance, policy->partition_count);
    }
}

static size_t some_room(struct chance *chance, enum operation operation)
{
    switch (operation) {
    case APART:
        return odds(chance, 80) ? 360 + below(chance, 3) : below(chance, 360);
    case IMPORT:
        return below(chance, 400);
    default:
        return below(chance, 12);
    }
}

/* Each operation once, with a policy value that may be damaged. */
static void try_calls(struct chance *chance, const kolbrees_policy *good, struct span query,
                      struct span rule)
{
    kolbrees_policy value = *good;
    if (odds(chance, 30)) {
        damage_value(chance, &value);
    }
    for (enum operation operation = OPEN; operation < OPERATIONS; operation++) {
        struct call call = {.operation = operation, .policy = &value};
        call.session = some_session(chance, good);
        call.partition = some_partition(chance, good);
        call.text = operation == IMPORT ? rule : query;
        call.room = some_room(chance, operation);
        call.place = operation == IMPORT ? below(chance, 150) : 0;
        attempt(&call);
    }
}

static void try_case(struct chance *chance, const kolbrees_policy *good)
{
    struct text query, rule;
    make_query(chance, good, &query);
    make_rule(chance, good, &rule);
    if (odds(chance, 50)) {
        damage(chance, &query);
        damage(chance, &rule);
    }
    uint64_t partition = 1 + below(chance, good->partition_count);
    uint64_t session = some_session(chance, good);
    try_policy_text(chance);
    try_calls(chance, good, span_of(&query), span_of(&rule));
    check_query(good, partition, session, span_of(&query));
    check_rule(good, span_of(&rule));
}

/* Without a policy there is nothing to go on with. */
static kolbrees_policy new_policy(struct chance *chance)
{
    struct text text;
    make_policy(chance, &text);
    struct call call = {.operation = LOAD, .text = span_of(&text)};
    struct outcome loading = perform(&call);
    if (loading.reply.word != KOLBREES_ACCEPTED) {
        fault("load: refused by %" PRIu64 " at line %" PRIu64 ", of the text\n%.*s",
              loading.reply.number, loading.reply.line, (int)text.length, (const char *)text.bytes);
        end_case();
        exit(report());
    }
    return loading.policy;
}

int main(void)
{
    kolbrees_policy good = {.view_count = 0};
    for (uint64_t i = 0; i < CASES; i++) {
        struct chance chance = {i};
        if (i % CASES_OF_A_POLICY == 0) {
            good = new_policy(&chance);
        }
        try_case(&chance, &good);
        if (!end_case()) {
            printf("in case %" PRIu64 "\n", i);
        }
    }
    check_all_met();
    return report();
}
