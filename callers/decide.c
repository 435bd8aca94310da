/* Document 01's program through the library: `decide FOLDER` decides the queries of
 * FOLDER/queries.txt under FOLDER/policy.txt and prints a line for each. */

#include <inttypes.h>
#include <kolbrees.h>
#include <stdio.h>

#include "bits.h"
#include "reading.h"

static const char *answer_of(kolbrees_reply reply)
{
    switch (reply.word) {
    case KOLBREES_YES:
        return "yes";
    case KOLBREES_NO:
        return "no";
    default:
        return "refused";
    }
}

static void print_line(unsigned query, kolbrees_reply reply, kolbrees_session session)
{
    printf("%u %s %u %" PRIu64 " %" PRIu64 "\n", query, answer_of(reply), ones(session.mask),
           reply.number, reply.line);
}

static void decide_all(kolbrees_policy policy, struct span queries)
{
    kolbrees_session session = kolbrees_open(policy).session;
    for (unsigned number = 1; queries.length > 0; number++) {
        struct span query = take_query(&queries);
        kolbrees_decision decision = kolbrees_decide(policy, session, query.bytes, query.length);
        session = decision.session;
        print_line(number, decision.reply, session);
    }
}

int main(int argc, char **argv)
{
    /* one byte past the limit, so that a longer policy is refused as too long */
    static uint8_t policy[KOLBREES_MOST_POLICY_BYTES + 1];
    static uint8_t queries[MOST_INPUT_BYTES];
    if (argc != 2) {
        fputs("usage: decide FOLDER\n", stderr);
        return 2;
    }
    size_t policy_bytes = read_file(argv[1], "policy.txt", policy, sizeof policy);
    size_t query_bytes = read_file(argv[1], "queries.txt", queries, sizeof queries);
    puts("query answer open refusal line");
    kolbrees_loading loading = kolbrees_load(policy, policy_bytes);
    if (loading.reply.word == KOLBREES_REFUSED) {
        print_line(0, loading.reply, (kolbrees_session){0});
    } else {
        decide_all(loading.policy, (struct span){queries, query_bytes});
    }
    return fflush(stdout) == 0 ? 0 : 1;
}
