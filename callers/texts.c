#include "texts.h"

#include <inttypes.h>
#include <string.h>

/* ---- lines of terms ---- */

static uint64_t constant(struct chance *chance)
{
    return odds(chance, 90) ? below(chance, 3) : any(chance);
}

/* A line of a table. Bit n of `shown` says whether variable n is shown. */
static void put_line(struct chance *chance, struct text *text, uint64_t table, uint64_t columns,
                     uint64_t shown)
{
    put(text, "%" PRIu64, table);
    for (uint64_t column = 0; column < columns; column++) {
        uint64_t variable = odds(chance, 95) ? below(chance, 6) : below(chance, 64);
        if (odds(chance, 20)) {
            put(text, " #%" PRIu64, constant(chance));
        } else {
            put(text, " %c%" PRIu64, (shown >> variable & 1) != 0 ? '!' : '?', variable);
        }
    }
    put(text, "\n");
}

/* ---- policies ---- */

/* Some views are shown whole, so that they cover more. */
static void put_view(struct chance *chance, struct text *text, uint64_t table, uint64_t columns)
{
    if (odds(chance, 70)) {
        put_line(chance, text, table, columns, any(chance));
        return;
    }
    put(text, "%" PRIu64, table);
    for (uint64_t column = 0; column < columns; column++) {
        put(text, " %c%" PRIu64, odds(chance, 70) ? '!' : '?', column);
    }
    put(text, "\n");
}

static void put_partition(struct chance *chance, struct text *text, uint64_t number, uint64_t views)
{
    unsigned percent = (unsigned)below(chance, 101);
    put(text, "%" PRIu64, number);
    for (uint64_t view = 1; view <= views; view++) {
        if (odds(chance, percent)) {
            put(text, " %" PRIu64, view);
        }
    }
    put(text, "\n");
}

void make_policy(struct chance *chance, struct text *text)
{
    uint64_t columns[KOLBREES_MOST_TABLES];
    uint64_t tables = odds(chance, 80) ? up_to(chance, 4) : up_to(chance, KOLBREES_MOST_TABLES);
    uint64_t views = 1 + below(chance, KOLBREES_MOST_VIEWS);
    uint64_t partitions = up_to(chance, KOLBREES_MOST_PARTITIONS);
    text->length = 0;
    put(text, "table columns\n");
    for (uint64_t i = 0; i < tables; i++) {
        columns[i] = up_to(chance, KOLBREES_MOST_COLUMNS);
        put(text, "%" PRIu64 " %" PRIu64 "\n", i + 1, columns[i]);
    }
    put(text, "view table terms\n");
    for (uint64_t view = 1; view <= views; view++) {
        uint64_t table = up_to(chance, tables);
        put(text, "%" PRIu64 " ", view);
        put_view(chance, text, table, columns[table - 1]);
    }
    put(text, "partition views\n");
    for (uint64_t partition = 1; partition <= partitions; partition++) {
        put_partition(chance, text, partition, views);
    }
}

/* ---- queries ---- */

/* A number of lines, in rare cases one too many. */
static uint64_t line_count(struct chance *chance)
{
    return odds(chance, 2) ? KOLBREES_MOST_LINES + 1 : up_to(chance, KOLBREES_MOST_LINES);
}

void make_query(struct chance *chance, const kolbrees_policy *policy, struct text *text)
{
    uint64_t shown = any(chance) & any(chance);
    uint64_t lines = line_count(chance);
    text->length = 0;
    put(text, "table terms\n");
    for (uint64_t line = 0; line < lines; line++) {
        uint64_t table = up_to(chance, policy->tables.count);
        put_line(chance, text, table, policy->tables.columns[table - 1], shown);
    }
}

/* ---- rules ---- */

/* The variables that a rule may name, and the letter of each. */
#define LETTERS 8

/* An atom; the variables that it names are added to those named. */
static void put_atom(struct chance *chance, struct text *text, uint64_t table, uint64_t columns,
                     uint64_t *named)
{
    put(text, "T%" PRIu64 "(", table);
    for (uint64_t column = 0; column < columns; column++) {
        uint64_t variable = below(chance, LETTERS);
        const char *comma = column > 0 ? ", " : "";
        if (odds(chance, 20)) {
            put(text, "%s%" PRIu64, comma, constant(chance));
        } else {
            put(text, "%s%c", comma, (char)('a' + variable));
            *named |= UINT64_C(1) << variable;
        }
    }
    put(text, ")");
}

static void put_body(struct chance *chance, const kolbrees_policy *policy, struct text *text,
                     uint64_t *named)
{
    uint64_t atoms = line_count(chance);
    for (uint64_t atom = 0; atom < atoms; atom++) {
        uint64_t table = up_to(chance, policy->tables.count);
        put(text, "%s", atom > 0 ? ", " : " :- ");
        put_atom(chance, text, table, policy->tables.columns[table - 1], named);
    }
    put(text, "\n");
}

/* A head with some of the variables named, in rare cases with others or with one again. */
static void put_head(struct chance *chance, struct text *text, uint64_t named)
{
    const char *comma = "";
    put(text, "Q%" PRIu64 "(", below(chance, 1000));
    for (uint64_t variable = 0; variable < LETTERS; variable++) {
        bool stands = (named >> variable & 1) != 0 ? odds(chance, 50) : odds(chance, 1);
        for (int times = stands ? (odds(chance, 2) ? 2 : 1) : 0; times > 0; times--) {
            put(text, "%s%c", comma, (char)('a' + variable));
            comma = ", ";
        }
    }
    put(text, ")");
}

void make_rule(struct chance *chance, const kolbrees_policy *policy, struct text *text)
{
    struct text body = {.length = 0};
    uint64_t named = 0;
    put_body(chance, policy, &body, &named);
    text->length = 0;
    put_head(chance, text, named);
    replace(text, text->length, 0, span_of(&body));
}

/* ---- damage ---- */

/* Bytes that stand in texts, and some that do not. */
static const uint8_t pool[] = "0123456789 !?#\n\r\t,():-TQxy\0\x80\xff";

/* Numbers at and past the limits. */
static const char *const numerals[] = {"0",
                                       "8",
                                       "9",
                                       "16",
                                       "17",
                                       "32",
                                       "33",
                                       "63",
                                       "64",
                                       "00",
                                       "123456789012",
                                       "18446744073709551615",
                                       "18446744073709551616",
                                       "123456789012345678901"};

/* A numeral in the place of a byte. */
static void put_numeral(struct chance *chance, struct text *text, size_t at)
{
    const char *numeral = numerals[below(chance, sizeof numerals / sizeof numerals[0])];
    replace(text, at, 1, (struct span){(const uint8_t *)numeral, strlen(numeral)});
}

/* A part of the text again, at another place. */
static void repeat(struct chance *chance, struct text *text, size_t at)
{
    struct text kept = *text;
    size_t from = below(chance, kept.length);
    size_t count = up_to(chance, kept.length - from);
    replace(text, at, 0, (struct span){kept.bytes + from, count});
}

/* The text again and again, until there is no room. */
static void stretch(struct text *text)
{
    struct text kept = *text;
    while (text->length < MOST_TEXT_BYTES) {
        replace(text, text->length, 0, span_of(&kept));
    }
}

/* Alters a text that has some bytes in one place. */
static void alter(struct chance *chance, struct text *text)
{
    size_t at = below(chance, text->length);
    struct span byte = {pool + below(chance, sizeof pool - 1), 1};
    switch (below(chance, 20)) {
    case 0:
        stretch(text);
        break;
    case 1:
        text->length = at;
        break;
    case 2:
        text->bytes[at] ^= (uint8_t)(1u << below(chance, 8));
        break;
    case 3:
    case 4:
        repeat(chance, text, at);
        break;
    case 5:
    case 6:
        replace(text, at, up_to(chance, text->length - at), (struct span){pool, 0});
        break;
    case 7:
    case 8:
    case 9:
        put_numeral(chance, text, at);
        break;
    case 10:
    case 11:
        replace(text, at, 0, byte);
        break;
    default:
        replace(text, at, 1, byte);
        break;
    }
}

void damage(struct chance *chance, struct text *text)
{
    for (uint64_t times = up_to(chance, 3); times > 0 && text->length > 0; times--) {
        alter(chance, text);
    }
}
