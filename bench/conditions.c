#define _GNU_SOURCE
#include "conditions.h"
#include <stdarg.h>
#include <stdio.h>
#include <stdlib.h>
#include <string.h>

struct condition measured[CONDITIONS], deep[CONDITIONS];

static const struct item counters[] = {{"A", 3, 4, 0, "0500"},
                                       {"B", 3, 4, 0, "0100"},
                                       {"C", 3, 4, 0, "0900"},
                                       {"D", 3, 4, 0, "0300"},
                                       {"X", 3, 5, 0, "12345"},
                                       {0}};
/* Negative values have a separate sign here: with the sign in the last byte GnuCOBOL takes hex 70 for minus, not 40. */
static const struct item mixed[] = {
    {"A", 3, 6, 2, "050000"}, {"B", 3, 4, 0, "0100"}, {"C", 4, 5, 1, "09000"}, {"D", 5, 4, 0, "+300"}, {0}};
static const struct item logbook[] = {{"TAG", 2, 6, 0, "REPAIR"},
                                      {"HOURS", 3, 5, 1, "01234"},
                                      {"WARRANTY", 3, 4, 0, "2000"},
                                      {"BALANCE", 4, 7, 2, "0012550"},
                                      {"DRIFT", 5, 4, 1, "-024"},
                                      {"KEEPER", 1, 20, 0, "IVANOVA "},
                                      {0}};
static const struct item long_numbers[] = {{"A", 3, 18, 18, "000000000000000001"},
                                           {"B", 4, 18, 18, "000000000000000002"},
                                           {"C", 5, 19, 18, "-000000000000000001"},
                                           {"D", 6, 19, 17, "000000000000000001+"},
                                           {0}};
static const struct item amounts[] = {{"A", 8, 7, 2, "0012550"},
                                      {"B", 8, 7, 2, "0090000"},
                                      {"C", 8, 5, 0, "-00125"},
                                      {"D", 4, 7, 2, "0012550"},
                                      {0}};
static const struct item groups[] = {{"A", 0, 65535, 0, "LOGBOOK "}, {"B", 0, 65535, 0, "LOGBOOK "}, {0}};
static const struct item dated[] = {
    {"DAYS", 3, 4, 0, "0905", "OVERDUE",
     "100 THRU 109 200 THRU 209 300 THRU 309 400 THRU 409 500 THRU 509 600 THRU 609 700 THRU 709 900 THRU 909"},
    {"STATE", 2, 6, 0, "REPAIR", "CLOSED", "'DONE' 'SCRAP' 'REPAIR'"},
    {0}};
static const struct item blank[] = {{"A", 3, 18, 0, " "}, {0}};
static struct item texts[65]; /* A and T1 to T63, all the same */

/* ---- Tokens and tables from text ---- */

static const char *const words[] = {"(", ")", "NOT", "AND", "OR", ">", "<", "=", ">=", "<=", "NUMERIC", "ALPHABETIC",
                                    "ALPHABETIC-LOWER", "ALPHABETIC-UPPER", "POSITIVE", "NEGATIVE", "ZERO"};

size_t bytes_of(const struct item *i) { return i->kind == 8 ? i->size / 2 + 1 : i->size; }

uint32_t digits_of(uint32_t kind, uint32_t size)
{
    return kind == 5 || kind == 6 ? size - 1 : kind == 3 || kind == 4 || kind == 8 ? size : 0;
}

static void put_row(uint32_t *table, size_t *numbers, uint32_t kind, size_t offset, size_t size, uint32_t scale, uint32_t digits)
{
    uint32_t row[] = {kind, (uint32_t)offset, (uint32_t)size, scale, digits};
    memcpy(table + *numbers, row, sizeof row);
    *numbers += 5;
}

/* A new row of the literal table: 'text', 12.5 or -12.5. */
static uint32_t literal(struct condition *c, const char *word)
{
    size_t start = c->byte_count;
    uint32_t scale = 0, kind = *word == '\'' ? 2 : *word == '-' || *word == '+' ? 5 : 3;
    for (const char *s = word; *s; s++)
        if (*s == '.' && kind != 2)
            scale = (uint32_t)strlen(s + 1);
        else if (*s != '\'')
            c->bytes[c->byte_count++] = (uint8_t)*s;
    size_t size = c->byte_count - start;
    put_row(c->literals, &c->literal_numbers, kind, start, size, scale, digits_of(kind, (uint32_t)size));
    return 65536 + (uint32_t)c->literal_numbers / 5 - 1;
}

static uint32_t token(struct condition *c, const char *word)
{
    for (uint32_t i = 0; i < sizeof words / sizeof *words; i++)
        if (!strcmp(word, words[i]))
            return 4 * 65536 + i;
    for (uint32_t i = 0; c->given[i].name; i++)
        if (!strcmp(word, c->given[i].name))
            return i;
    uint32_t name = 5 * 65536;
    for (const struct item *i = c->given; i->name; i++)
        if (i->named) {
            if (!strcmp(word, i->named))
                return name;
            name++;
        }
    if (word[0] == 'S' && word[2] == '-')
        return 2 * 65536 + (uint32_t)(word[1] - '0');
    return literal(c, word);
}

/* The row of an item's condition-name. */
static void put_name(struct condition *c, uint32_t item)
{
    uint32_t *row = c->names + c->name_numbers, *pair = row;
    char *rest = strdup(c->given[item].values);
    row[0] = item;
    for (char *word = strtok(rest, " "); word; word = strtok(NULL, " "))
        if (!strcmp(word, "THRU"))
            pair[1] = literal(c, strtok(NULL, " ")) - 65536;
        else {
            pair = row + 2 + 2 * row[1]++;
            pair[0] = pair[1] = literal(c, word) - 65536;
        }
    free(rest);
    c->name_numbers += 18;
}

/* Digits in halves from the right, before the sign. */
static void pack(const struct item *i, uint8_t *field)
{
    int minus = *i->content == '-';
    size_t halves = 2 * bytes_of(i);
    for (size_t h = 0; h < halves; h++) {
        size_t after = halves - 2 - h; /* digits after this one; of the sign's half, past all */
        uint8_t half = h + 1 == halves ? 3 + minus : after < i->size ? (uint8_t)(i->content[minus + i->size - 1 - after] - '0') : 0;
        field[h / 2] = (uint8_t)(h % 2 ? field[h / 2] | half : half << 4);
    }
}

static struct condition *add(struct condition *list, const char *name, const struct item *given, const char *text)
{
    struct condition *c = list;
    while (c->name)
        c++;
    c->name = name;
    c->given = given;
    c->text = text;
    for (const struct item *i = given; i->name; i++) {
        put_row(c->items, &c->item_numbers, i->kind, c->record_size, bytes_of(i), i->scale, digits_of(i->kind, i->size));
        c->record = realloc(c->record, c->record_size + bytes_of(i));
        if (i->kind == 8)
            pack(i, c->record + c->record_size);
        else
            for (size_t k = 0; k < i->size; k++)
                c->record[c->record_size + k] = (uint8_t)i->content[k % strlen(i->content)];
        c->record_size += bytes_of(i);
    }
    for (uint32_t i = 0; given[i].name; i++)
        if (given[i].named)
            put_name(c, i);
    char *rest = strdup(text);
    for (char *word = strtok(rest, " "); word; word = strtok(NULL, " "))
        c->tokens[c->token_count++] = token(c, word);
    free(rest);
    return c;
}

/* Rows that are not used, up to 64 in both tables. */
static void fill_tables(struct condition *c)
{
    while (c->item_numbers < 320)
        put_row(c->items, &c->item_numbers, 0, 0, c->record_size, 0, 0);
    while (c->literal_numbers < 320)
        literal(c, "-123456789012345678");
}

/* ---- Records ---- */

void as_cobol(const struct condition *c, const uint8_t *record, uint8_t *lent)
{
    memcpy(lent, record, c->record_size);
    uint8_t *end = lent;
    for (const struct item *i = c->given; i->name; i++) {
        end += bytes_of(i);
        if (i->kind == 8)
            end[-1] = (uint8_t)((end[-1] & 0xf0) | (end[-1] % 16 == 4 ? 0xd : 0xc));
    }
}

/* A digit changed, or the sign. */
static void change_packed(const struct item *i, uint8_t *field)
{
    uint32_t after = (uint32_t)rand() % i->size; /* digits after the one that is changed */
    uint8_t *byte = field + bytes_of(i) - 1 - (after + 1) / 2;
    uint8_t digit = (uint8_t)(rand() % 3);
    *byte = (uint8_t)(after % 2 ? (*byte & 0xf0) | digit : (*byte & 0x0f) | digit << 4);
    field[bytes_of(i) - 1] = (uint8_t)((field[bytes_of(i) - 1] & 0xf0) | (3 + rand() % 2));
}

void change_record(const struct condition *c, uint8_t *record)
{
    uint8_t *byte = record;
    for (const struct item *i = c->given; i->name; i++) {
        if (i->kind == 8) {
            change_packed(i, byte);
            byte += bytes_of(i);
            continue;
        }
        for (uint32_t k = 0; k < i->size; k++, byte++)
            if ((i->kind == 5 && k == 0) || (i->kind == 6 && k == i->size - 1))
                *byte = "+-"[rand() % 2];
            else if (rand() % 4 == 0)
                *byte = (uint8_t)(i->kind < 3 ? "AB z"[rand() % 4] : '0' + rand() % 3);
    }
}

size_t laid(const struct condition *c)
{
    size_t held = (512 << 10) / c->record_size;
    return held < LAID ? held : LAID;
}

/* ---- The conditions ---- */

static char *format(const char *shape, ...)
{
    char *made;
    va_list rest;
    va_start(rest, shape);
    if (vasprintf(&made, shape, rest) < 0)
        abort();
    va_end(rest);
    return made;
}

static char *times(int count, const char *piece)
{
    char *made = calloc((size_t)count + 1, strlen(piece) + 1);
    while (count-- > 0)
        strcat(made, piece);
    return made;
}

static void add_measured(void)
{
    const char *guard = "X NUMERIC AND X > A", *case_1 = "A > B AND NOT < C OR D";
    add(measured, "typical: X NUMERIC AND X > A", counters, guard);
    add(measured, "typical: case 1, unsigned of one size", counters, case_1);
    add(measured, "typical: case 1, sizes, scales, signs", mixed, case_1);
    add(measured, "typical: logbook rule, 6 rows", logbook,
        "TAG = 'REPAIR' AND HOURS NUMERIC AND HOURS > 100.5 AND < WARRANTY AND ( BALANCE NEGATIVE OR DRIFT > -2.5 )");
    add(measured, "typical: one text and ALPHABETIC", logbook, "TAG NOT = 'ENTRY' AND KEEPER ALPHABETIC");
    add(measured, "condition-name of 8 ranges", dated, "OVERDUE");
    add(measured, "condition-name of 3 texts", dated, "CLOSED");
    add(measured, "packed: two of one size", amounts, "A < B");
    add(measured, "packed: two of other sizes", amounts, "A > C");
    add(measured, "packed beside display", amounts, "A = D");
    add(measured, "packed: NUMERIC, sign, limit", amounts, "A NUMERIC AND A POSITIVE AND A < 900.00 AND C NEGATIVE");

    /* From here on nearly all simple conditions are judged. Where GnuCOBOL compares by memcmp, the objects differ: else the C
     * compiler behind it would judge one relation for all that are the same. */
    fill_tables(add(measured, "worst: the first, 64 items, 64 literals", counters, guard));
    add(measured, "worst: 127-fold OR, 4 digits", counters, format("X = B%s", times(63, " OR C OR D")));
    add(measured, "worst: 127-fold OR, 18 digits, scale 18", long_numbers, format("A = B%s", times(63, " OR C OR D")));
    add(measured, "worst: 128-fold OR of switches", counters, format("S0-ON%s", times(127, " OR S1-ON")));
    add(measured, "worst: brackets 16 deep", counters, format("%sX > B%s", times(16, "X < C OR NOT ( "), times(16, " )")));
    add(measured, "worst: 255 tokens, each target turned often", counters,
        format("%sS0-ON%s%s", times(16, "NOT ( "), times(71, " OR S1-ON"), times(16, " AND S2-ON OR S3-ON )")));
    char *same = "A = T1";
    for (int i = 2; i < 64; i++)
        same = format("%s AND T%d", same, i);
    add(measured, "worst: 63-fold AND, 256 characters", texts, same);
    add(measured, "worst: 85-fold AND, 256 ALPHABETIC", texts, format("A ALPHABETIC%s", times(84, " AND T1 ALPHABETIC")));
    add(measured, "worst: groups of 65,535", groups, "A = B");
}

static void add_deep(void)
{
    const char *closed = times(16, " )");
    add(deep, "case 1", counters, "A > B AND NOT < C OR D");
    add(deep, "16 brackets", counters, format("%sS0-ON%s", times(16, "( "), closed));
    add(deep, "16 of NOT (", counters, format("%sS0-ON%s", times(16, "NOT ( "), closed));
    add(deep, "16 of S1-ON OR (, then 96-fold OR", counters,
        format("%sS1-ON%s%s", times(16, "S1-ON OR ( "), times(95, " OR S1-ON"), closed));
    add(deep, "16 of NOT S0-ON AND NOT (, then 53-fold AND", counters,
        format("%sNOT S0-ON%s%s", times(16, "NOT S0-ON AND NOT ( "), times(52, " AND NOT S0-ON"), closed));
    add(deep, "16 brackets, then 75-fold AND", counters,
        format("%sNOT S0-ON%s%s", times(16, "( "), times(74, " AND NOT S0-ON"), closed));
    add(deep, "128-fold OR", counters, format("S0-ON%s", times(127, " OR S1-ON")));
    add(deep, "85-fold AND", counters, format("NOT S0-ON%s", times(84, " AND NOT S1-ON")));
    add(deep, "127-fold OR, abbreviated", counters, format("A = B%s", times(63, " OR C OR D")));
    add(deep, "127-fold AND, abbreviated", counters, format("A NOT = B%s", times(63, " AND C AND D")));
    add(deep, "18 digits, scale 18", long_numbers, "B < C");
    add(deep, "256 characters", texts, "A = T1");
    add(deep, "groups of 65,535", groups, "A = B");
    add(deep, "refused: 17 brackets", counters, format("%sS0-ON%s", times(17, "( "), times(17, " )")));
    add(deep, "refused: 256 open brackets", counters, times(256, "( "));
    add(deep, "refused: 128 of NOT (", counters, times(128, "NOT ( "));
    add(deep, "refused: 64 of S1-ON OR NOT (", counters, times(64, "S1-ON OR NOT ( "));
    add(deep, "refused: 256 operands", counters, times(256, "A "));
    add(deep, "refused: 257 tokens", counters, times(257, "( "));
    add(deep, "refused: typing", logbook, "TAG = KEEPER AND HOURS");
    add(deep, "refused: invalid data", blank, "A NUMERIC OR A ZERO");
}

void make_conditions(void)
{
    for (int i = 0; i < 64; i++)
        texts[i] = (struct item){i ? format("T%d", i) : "A", 2, 256, 0, "LOGBOOK "};
    add_measured();
    add_deep();
}
