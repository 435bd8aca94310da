/* Whether kolbrees.h is the library's: the sizes and limits that the library tells of itself, the
 * layout of the structs, the cells that loading writes, and every word and number by a call. */

#include <inttypes.h>
#include <kolbrees.h>

#include "checks.h"
#include "lent.h"
#include "papers.h"
#include "text.h"

static void check_facts(void)
{
    kolbrees_facts facts = kolbrees_about();
    same_number("kolbrees_version", kolbrees_version(), KOLBREES_VERSION);
    same_number("version", facts.version, KOLBREES_VERSION);
    same_number("policy_size", facts.policy_size, sizeof(kolbrees_policy));
    same_number("session_size", facts.session_size, sizeof(kolbrees_session));
    same_number("reply_size", facts.reply_size, sizeof(kolbrees_reply));
    same_number("loading_size", facts.loading_size, sizeof(kolbrees_loading));
    same_number("opening_size", facts.opening_size, sizeof(kolbrees_opening));
    same_number("decision_size", facts.decision_size, sizeof(kolbrees_decision));
    same_number("most_tables", facts.most_tables, KOLBREES_MOST_TABLES);
    same_number("most_columns", facts.most_columns, KOLBREES_MOST_COLUMNS);
    same_number("most_lines", facts.most_lines, KOLBREES_MOST_LINES);
    same_number("most_views", facts.most_views, KOLBREES_MOST_VIEWS);
    same_number("most_partitions", facts.most_partitions, KOLBREES_MOST_PARTITIONS);
    same_number("most_policy_bytes", facts.most_policy_bytes, KOLBREES_MOST_POLICY_BYTES);
    same_number("most_apart_cells", facts.most_apart_cells, KOLBREES_MOST_APART_CELLS);
    same_number("row_cells", KOLBREES_ROW_CELLS, 1 + facts.most_columns);
}

/* A place in a struct, counted in numbers of 64 bits. */
#define AT(type, field, cells) same_number(#type "." #field, offsetof(type, field), 8 * (cells))
#define SIZE(type, cells) same_number(#type, sizeof(type), 8 * (cells))

static void check_layout(void)
{
    SIZE(kolbrees_term, 2);
    AT(kolbrees_term, mark, 0);
    AT(kolbrees_term, number, 1);
    SIZE(kolbrees_line, 17);
    AT(kolbrees_line, table, 0);
    AT(kolbrees_line, terms, 1);
    SIZE(kolbrees_tables, 17);
    AT(kolbrees_tables, count, 0);
    AT(kolbrees_tables, columns, 1);
    SIZE(kolbrees_policy, 17 + 1 + 32 * 17 + 1 + 32);
    AT(kolbrees_policy, tables, 0);
    AT(kolbrees_policy, view_count, 17);
    AT(kolbrees_policy, views, 18);
    AT(kolbrees_policy, partition_count, 18 + 32 * 17);
    AT(kolbrees_policy, grants, 19 + 32 * 17);
    SIZE(kolbrees_session, 1);
    AT(kolbrees_session, mask, 0);
}

static void check_reply_layout(void)
{
    SIZE(kolbrees_reply, 4);
    AT(kolbrees_reply, word, 0);
    AT(kolbrees_reply, count, 1);
    AT(kolbrees_reply, number, 2);
    AT(kolbrees_reply, line, 3);
    AT(kolbrees_loading, reply, 0);
    AT(kolbrees_loading, policy, 4);
    AT(kolbrees_opening, reply, 0);
    AT(kolbrees_opening, session, 4);
    AT(kolbrees_decision, reply, 0);
    AT(kolbrees_decision, session, 4);
    SIZE(kolbrees_facts, 14);
    AT(kolbrees_facts, version, 0);
    AT(kolbrees_facts, policy_size, 1);
    AT(kolbrees_facts, session_size, 2);
    AT(kolbrees_facts, reply_size, 3);
    AT(kolbrees_facts, loading_size, 4);
    AT(kolbrees_facts, opening_size, 5);
    AT(kolbrees_facts, decision_size, 6);
    AT(kolbrees_facts, most_tables, 7);
    AT(kolbrees_facts, most_columns, 8);
    AT(kolbrees_facts, most_lines, 9);
    AT(kolbrees_facts, most_views, 10);
    AT(kolbrees_facts, most_partitions, 11);
    AT(kolbrees_facts, most_policy_bytes, 12);
    AT(kolbrees_facts, most_apart_cells, 13);
}

/* ---- a policy of the most tables, views and partitions, whose cells tell their places ----
 *
 * A table's columns, a view's table and a term's mark have few values, and go round with their
 * places. Constants and the words of grants are all different. */

static uint64_t columns_of(uint64_t table)
{
    return 1 + table * 5 % KOLBREES_MOST_COLUMNS;
}

static uint64_t table_of(uint64_t view)
{
    return 1 + view * 7 % KOLBREES_MOST_TABLES;
}

/* Shown variables are even and hidden ones odd, so that none is both. */
static kolbrees_term term_of(uint64_t view, uint64_t column)
{
    uint64_t place = view * KOLBREES_MOST_COLUMNS + column;
    switch ((view + column) % 3) {
    case 0:
        return (kolbrees_term){KOLBREES_CONSTANT, UINT64_MAX - place * UINT64_C(1000000007)};
    case 1:
        return (kolbrees_term){KOLBREES_SHOWN, place * 2 % 64};
    default:
        return (kolbrees_term){KOLBREES_HIDDEN, (place * 2 + 1) % 64};
    }
}

/* An odd multiple of a view's number: no two are the same. */
static uint64_t grants_of(uint64_t view)
{
    return (uint32_t)(view * UINT64_C(2654435761));
}

static void put_view(struct text *text, uint64_t view)
{
    put(text, "%" PRIu64 " %" PRIu64, view, table_of(view));
    for (uint64_t column = 1; column <= columns_of(table_of(view)); column++) {
        kolbrees_term term = term_of(view, column);
        put(text, " %c%" PRIu64, " #!?"[term.mark], term.number);
    }
    put(text, "\n");
}

static void put_partition(struct text *text, uint64_t partition)
{
    put(text, "%" PRIu64, partition);
    for (uint64_t view = 1; view <= KOLBREES_MOST_VIEWS; view++) {
        if ((grants_of(view) >> (partition - 1) & 1) != 0) {
            put(text, " %" PRIu64, view);
        }
    }
    put(text, "\n");
}

static void put_policy(struct text *text)
{
    put(text, "table columns\n");
    for (uint64_t table = 1; table <= KOLBREES_MOST_TABLES; table++) {
        put(text, "%" PRIu64 " %" PRIu64 "\n", table, columns_of(table));
    }
    put(text, "view table terms\n");
    for (uint64_t view = 1; view <= KOLBREES_MOST_VIEWS; view++) {
        put_view(text, view);
    }
    put(text, "partition views\n");
    for (uint64_t partition = 1; partition <= KOLBREES_MOST_PARTITIONS; partition++) {
        put_partition(text, partition);
    }
}

static void check_terms(const kolbrees_line *line, uint64_t view)
{
    for (uint64_t column = 1; column <= KOLBREES_MOST_COLUMNS; column++) {
        bool used = column <= columns_of(table_of(view));
        kolbrees_term expected = {KOLBREES_UNUSED, 0};
        if (used) {
            expected = term_of(view, column);
        }
        same_number("a mark", line->terms[column - 1].mark, expected.mark);
        same_number("a number", line->terms[column - 1].number, expected.number);
    }
}

static void check_cells(const kolbrees_policy *policy)
{
    same_number("tables", policy->tables.count, KOLBREES_MOST_TABLES);
    same_number("views", policy->view_count, KOLBREES_MOST_VIEWS);
    same_number("partitions", policy->partition_count, KOLBREES_MOST_PARTITIONS);
    for (uint64_t table = 1; table <= KOLBREES_MOST_TABLES; table++) {
        same_number("columns", policy->tables.columns[table - 1], columns_of(table));
    }
    for (uint64_t view = 1; view <= KOLBREES_MOST_VIEWS; view++) {
        same_number("the table of a view", policy->views[view - 1].table, table_of(view));
        same_number("the grants of a view", policy->grants[view - 1], grants_of(view));
        check_terms(&policy->views[view - 1], view);
    }
}

/* A struct that is too large for registers is written where a hidden first argument points. Called
 * in that form, loading writes into memory that we choose. */
typedef void load_into(kolbrees_loading *into, const uint8_t *bytes, size_t count);

static void check_loading(void)
{
    load_into *load = (load_into *)(void (*)(void))kolbrees_load;
    uint8_t filler = 0xA5;
    uint8_t *memory = lend(LENT_BUFFER, sizeof(kolbrees_loading), filler);
    kolbrees_loading *loading = (kolbrees_loading *)(void *)memory;
    struct text text = {.length = 0};
    put_policy(&text);
    load(loading, text.bytes, text.length);
    same_number("bytes beside the struct stay",
                stayed(memory, sizeof *loading, filler, 0, sizeof *loading), true);
    same_number("the word", loading->reply.word, KOLBREES_ACCEPTED);
    same_number("the count", loading->reply.count, 0);
    same_number("the number", loading->reply.number, 0);
    same_number("the line", loading->reply.line, 0);
    check_cells(&loading->policy);
}

int main(void)
{
    check_facts();
    check_layout();
    check_reply_layout();
    check_loading();
    check_papers();
    return report();
}
