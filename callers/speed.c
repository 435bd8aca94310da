/* What calls cost: `speed FOLDER` prints nanoseconds under FOLDER/policy.txt, the best of many
 * rounds, beside what deciding costs inside a run over a file and what the check of a policy costs.
 * The queries are the first of the benchmark (bench/texts.rs), and go with its policy. */

#define _POSIX_C_SOURCE 199309L
#include <kolbrees.h>
#include <stdio.h>
#include <string.h>
#include <time.h>

#include "reading.h"

#define ROUNDS 500
#define CALLS_OF_A_ROUND 100
#define OUTPUT_BYTES 524288

/* Of crate measure: the output of a run over a file, and a policy text's value checked so often. */
uint64_t measure_run(const uint8_t *policy, size_t policy_bytes, const uint8_t *queries,
                     size_t query_bytes, uint8_t *out, size_t room);
uint64_t measure_check(const uint8_t *policy, size_t policy_bytes, uint64_t times);

/* What a call takes. */
struct job {
    struct span policy_text;
    struct span query;
    kolbrees_policy policy;
    kolbrees_session session;
};

/* Something of each reply is kept, so that no call is left out. */
static volatile uint64_t kept;

typedef void work(const struct job *job);

static void load(const struct job *job)
{
    kept = kolbrees_load(job->policy_text.bytes, job->policy_text.length).policy.view_count;
}

static void open_session(const struct job *job)
{
    kept = kolbrees_open(job->policy).session.mask;
}

static void decide(const struct job *job)
{
    struct span query = job->query;
    kept = kolbrees_decide(job->policy, job->session, query.bytes, query.length).session.mask;
}

static void labels(const struct job *job)
{
    uint64_t out[KOLBREES_MOST_LINES];
    struct span query = job->query;
    kept = kolbrees_labels(job->policy, query.bytes, query.length, out, KOLBREES_MOST_LINES).count;
}

static double now(void)
{
    struct timespec time;
    clock_gettime(CLOCK_MONOTONIC, &time);
    return (double)time.tv_sec * 1e9 + (double)time.tv_nsec;
}

static double lesser(double a, double b)
{
    return a < b ? a : b;
}

/* The least time of a call. */
static double of_calls(work *call, const struct job *job)
{
    double least = 1e18;
    for (int round = 0; round < ROUNDS; round++) {
        double began = now();
        for (int calls = 0; calls < CALLS_OF_A_ROUND; calls++) {
            call(job);
        }
        least = lesser(least, (now() - began) / CALLS_OF_A_ROUND);
    }
    return least;
}

/* The least time of a run over the query, so many times in a file. */
static double of_run(const struct job *job, size_t times)
{
    static uint8_t queries[MOST_INPUT_BYTES], out[OUTPUT_BYTES];
    for (size_t i = 0; i < times; i++) {
        memcpy(queries + i * job->query.length, job->query.bytes, job->query.length);
    }
    double least = 1e18;
    for (int round = 0; round < ROUNDS; round++) {
        double began = now();
        kept = measure_run(job->policy_text.bytes, job->policy_text.length, queries,
                           times * job->query.length, out, OUTPUT_BYTES);
        least = lesser(least, now() - began);
    }
    return least;
}

/* What one query more costs a run. */
static double in_a_run(const struct job *job)
{
    size_t times = MOST_INPUT_BYTES / job->query.length;
    return (of_run(job, times) - of_run(job, 0)) / (double)times;
}

static double of_checks(const struct job *job, uint64_t times)
{
    double least = 1e18;
    for (int round = 0; round < ROUNDS; round++) {
        double began = now();
        kept = measure_check(job->policy_text.bytes, job->policy_text.length, times);
        least = lesser(least, now() - began);
    }
    return least;
}

static const struct {
    const char *name, *text;
} queries[] = {
    {"one line", "table terms\n1 !1 #4 ?2\n"},
    {"two lines", "table terms\n1 !1 #4 ?2\n2 !1 #7\n"},
    {"three lines", "table terms\n1 !1 #4 ?2\n2 !1 ?3\n1 !6 !4 ?5\n"},
    {"query (6)", "table terms\n1 !1 !2 ?3\n1 ?4 !2 ?3\n"},
    {"cycle of 8", "table terms\n2 ?0 ?1\n2 ?1 ?2\n2 ?2 ?3\n2 ?3 ?4\n"
                   "2 ?4 ?5\n2 ?5 ?6\n2 ?6 ?7\n2 ?7 ?0\n"},
};

static void print(struct job *job)
{
    puts("nanoseconds, the best of many rounds");
    printf("%-28s %6.0f\n", "load", of_calls(load, job));
    printf("%-28s %6.0f\n", "open", of_calls(open_session, job));
    printf("%-28s %6.0f\n", "check of a policy", (of_checks(job, 100) - of_checks(job, 0)) / 100);
    printf("%-28s %6s %6s %6s\n", "", "labels", "decide", "in a run");
    for (size_t i = 0; i < sizeof queries / sizeof queries[0]; i++) {
        job->query = (struct span){(const uint8_t *)queries[i].text, strlen(queries[i].text)};
        printf("%-28s %6.0f %6.0f %6.0f\n", queries[i].name, of_calls(labels, job),
               of_calls(decide, job), in_a_run(job));
    }
}

int main(int argc, char **argv)
{
    static uint8_t text[KOLBREES_MOST_POLICY_BYTES];
    if (argc != 2) {
        fputs("usage: speed FOLDER\n", stderr);
        return 2;
    }
    struct job job = {.policy_text = {text, read_file(argv[1], "policy.txt", text, sizeof text)}};
    kolbrees_loading loading = kolbrees_load(text, job.policy_text.length);
    if (loading.reply.word == KOLBREES_REFUSED) {
        fprintf(stderr, "speed: %s/policy.txt is refused\n", argv[1]);
        return 2;
    }
    job.policy = loading.policy;
    job.session = kolbrees_open(job.policy).session;
    print(&job);
    return 0;
}
