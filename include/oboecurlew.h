/* Oboecurlew: COBOL conditions, read and printed, expanded, planned, judged and run; record descriptions, read; records, compared,
 * merged and mended; what a rule looks at, listed.
 *
 * Build the archive with `tests/archive` (target/staticlib/liboboecurlew.a) and link it.
 *
 * Every call returns the refusal's number, OBOECURLEW_OK (0) on success, and writes all nine numbers of the answer; what a call
 * has nothing to say of is 0. A refusal changes no output. No call needs heap, and none asks the caller to check anything first:
 * any numbers and bytes may be passed. A pointer is not null, also where its length is 0; lengths count numbers, or bytes for
 * uint8_t. Output and answer overlap none of the other arguments.
 *
 * items, literals  tables of rows of five numbers: kind, offset, size in bytes, scale, digits (0 where the kind is not numeric)
 * bytes            the literal bytes
 * names            condition-names, rows of 18 numbers: item row, a count of 1 to 8, that many pairs of literal rows (low and high, ends
 *                  included, alike for a single value), zeros
 * tokens           the condition, each made by OBOECURLEW_TOKEN or one of the macros over it
 * output           room for at least 634 numbers holds every expanded form, 640 every plan
 * plan             rows of five numbers, as oboecurlew_plan writes them
 * record           the record's bytes
 * switches         the switch byte; switch 0 is hex 80
 */
#ifndef OBOECURLEW_H
#define OBOECURLEW_H

#include <stddef.h>
#include <stdint.h>

#ifdef __cplusplus
extern "C" {
#endif

/* What a call says besides the number that it returns. */
typedef struct {
    uint32_t value;      /* a refusal's place, counted from 0; else 1 or 0 for true or false (judge, run); else 0 */
    uint32_t byte;       /* refusals 13 and 17: the item's first wrong byte, as an offset in the record; else 0 */
    uint32_t judged;     /* judge, run: how many simple conditions were judged, one that stopped among them; else 0 */
    uint32_t written[6]; /* a call with outputs: the count of numbers or bytes written to each, in order; else 0 */
} oboecurlew_answer;

/* Refusals, and the place that each gives. */
enum oboecurlew_refusal {
    OBOECURLEW_OK = 0,
    OBOECURLEW_ITEM_TABLE = 1,    /* item table length not a multiple of 5, or over 320: 0 */
    OBOECURLEW_ITEM_ROW = 2,      /* an item row breaks its rules: the first such row */
    OBOECURLEW_LITERAL_TABLE = 3, /* as 1 */
    OBOECURLEW_LITERAL_ROW = 4,   /* as 2 */
    OBOECURLEW_TOKEN_COUNT = 5,   /* 0 tokens or over 256, converted ones too: 0 */
    OBOECURLEW_TOKEN = 6,         /* no such token (a switch-off word is none), or beyond its table: the first such token */
    OBOECURLEW_GRAMMAR = 7,       /* no condition: the length of the longest beginning that one shares */
    OBOECURLEW_DEPTH = 8,         /* 17 brackets open at once: the first "(" that makes 17 open */
    OBOECURLEW_TYPING = 9,        /* typing broken: the first such simple condition */
    OBOECURLEW_ROOM = 10,         /* output shorter than needed: the numbers needed in it */
    OBOECURLEW_PLAN = 11,         /* no sound plan: 0, or the first unsound row */
    OBOECURLEW_RECORD = 12,       /* the record ends before an item does: the first such item row */
    OBOECURLEW_DATA = 13,         /* invalid numeric data reached: its simple condition; for run, its row; with the byte */
    OBOECURLEW_TEXT = 14,         /* no valid description: the first faulty byte, or the entry that passes a limit */
    OBOECURLEW_SPELLING = 15,     /* a faulty word of a condition text: its first byte */
    OBOECURLEW_NAME = 16,         /* read: an unknown or doubled name, its first byte; print: a token without a name of its own */
    OBOECURLEW_LETTERS = 17,      /* invalid alphabetic data reached: as 13 */
    OBOECURLEW_CONDITION_NAME = 18, /* name table length not a multiple of 18, or over 1,152: 0; else the first unsound row; just after 4 */
    OBOECURLEW_OVERLAP = 19,      /* two elementary items share a byte: the first row that overlaps an earlier one */
    OBOECURLEW_LENGTHS = 20,      /* the copies to be merged are not equally long: 0 */
    OBOECURLEW_UNEVEN = 21        /* records of this size do not fill the file: 0 */
};

/* Row kinds: group, alphabetic, alphanumeric, unsigned numeric, sign in the last byte, sign leading or trailing separate, group with no
 * signed item at any depth, which may be tested NUMERIC, packed with a sign and without. */
enum oboecurlew_kind {
    OBOECURLEW_GROUP = 0,
    OBOECURLEW_ALPHABETIC_ITEM = 1,
    OBOECURLEW_ALPHANUMERIC = 2,
    OBOECURLEW_UNSIGNED = 3,
    OBOECURLEW_SIGNED = 4,
    OBOECURLEW_SIGN_LEADING = 5,
    OBOECURLEW_SIGN_TRAILING = 6,
    OBOECURLEW_NUMERIC_GROUP = 7,
    OBOECURLEW_PACKED = 8,
    OBOECURLEW_PACKED_UNSIGNED = 9
};

/* A token is kind * 65536 + v. */
#define OBOECURLEW_TOKEN(kind, v) ((uint32_t)(kind) * 65536u + (uint32_t)(v))
#define OBOECURLEW_ITEM(row) OBOECURLEW_TOKEN(0, row)
#define OBOECURLEW_LITERAL(row) OBOECURLEW_TOKEN(1, row)
#define OBOECURLEW_ON(number) OBOECURLEW_TOKEN(2, number)
#define OBOECURLEW_OFF(number) OBOECURLEW_TOKEN(3, number) /* retired: only the converters take it */
#define OBOECURLEW_WORD(word) OBOECURLEW_TOKEN(4, word)
#define OBOECURLEW_CONDITION(row) OBOECURLEW_TOKEN(5, row) /* a condition-name, of which names has the row */

/* The words, for OBOECURLEW_WORD; a plan's relation is the word's number too, plus OBOECURLEW_NEGATED where NOT belongs to it. */
enum oboecurlew_word {
    OBOECURLEW_OPEN = 0,
    OBOECURLEW_CLOSE = 1,
    OBOECURLEW_NOT = 2,
    OBOECURLEW_AND = 3,
    OBOECURLEW_OR = 4,
    OBOECURLEW_GREATER = 5,
    OBOECURLEW_LESS = 6,
    OBOECURLEW_EQUAL = 7,
    OBOECURLEW_GREATER_OR_EQUAL = 8,
    OBOECURLEW_LESS_OR_EQUAL = 9,
    OBOECURLEW_NUMERIC = 10,
    OBOECURLEW_ALPHABETIC = 11,
    OBOECURLEW_ALPHABETIC_LOWER = 12,
    OBOECURLEW_ALPHABETIC_UPPER = 13,
    OBOECURLEW_POSITIVE = 14,
    OBOECURLEW_NEGATIVE = 15,
    OBOECURLEW_ZERO = 16,
    OBOECURLEW_NEGATED = 32
};

/* A plan's targets are later rows, or these verdicts. */
enum oboecurlew_target { OBOECURLEW_FALSE = 65534, OBOECURLEW_TRUE = 65535 };

/* Writes the expanded form of a condition from the start of the output. Refusals 1 to 10, 18. */
uint32_t oboecurlew_expand(const uint32_t *items, size_t item_numbers, const uint32_t *literals, size_t literal_numbers,
                           const uint8_t *bytes, size_t byte_count, const uint32_t *names, size_t name_numbers,
                           const uint32_t *tokens, size_t token_count,
                           uint32_t *output, size_t output_numbers, oboecurlew_answer *answer);

/* Writes the plan of a condition, five numbers for each simple condition, from the start of the output. Refusals 1 to 10, 18. */
uint32_t oboecurlew_plan(const uint32_t *items, size_t item_numbers, const uint32_t *literals, size_t literal_numbers,
                         const uint8_t *bytes, size_t byte_count, const uint32_t *names, size_t name_numbers,
                         const uint32_t *tokens, size_t token_count,
                         uint32_t *output, size_t output_numbers, oboecurlew_answer *answer);

/* Judges a condition on a record and a switch byte. Refusals 1 to 9, 18, 12, 13, 17. */
uint32_t oboecurlew_judge(const uint32_t *items, size_t item_numbers, const uint32_t *literals, size_t literal_numbers,
                          const uint8_t *bytes, size_t byte_count, const uint32_t *names, size_t name_numbers,
                          const uint32_t *tokens, size_t token_count,
                          const uint8_t *record, size_t record_size, uint8_t switches, oboecurlew_answer *answer);

/* Runs a plan on a record and a switch byte. Refusals 1 to 4, 18, 11, 12, 13, 17. */
uint32_t oboecurlew_run(const uint32_t *items, size_t item_numbers, const uint32_t *literals, size_t literal_numbers,
                        const uint8_t *bytes, size_t byte_count, const uint32_t *names, size_t name_numbers,
                        const uint32_t *plan, size_t plan_numbers,
                        const uint8_t *record, size_t record_size, uint8_t switches, oboecurlew_answer *answer);

/* Lists each elementary item whose bytes differ between two copies of a record, in row order: its row, and 'V' where the values differ,
 * 'B' where numeric values are equal, 'I' where numeric content is invalid in either. 128 numbers hold every list. Refusals 1, 2, 12 (of
 * either record), 10. */
uint32_t oboecurlew_differ(const uint32_t *items, size_t item_numbers, const uint8_t *first, size_t first_size, const uint8_t *second,
                           size_t second_size, uint32_t *output, size_t output_numbers, oboecurlew_answer *answer);

/* Merges two copies of a record with the one that both began from, item by item: what one side changed is taken from it; what both
 * changed, and not alike, goes by a plan, which is run once, on the first copy (true takes the first, false the second); if it stops,
 * the item keeps its old bytes and its row is listed. Bytes in no elementary item stay old. The merged record is as long as the copies;
 * 64 numbers hold every list. Refusals 1 to 4, 18, 19, 20, 11, 12, 10, which change neither output. */
uint32_t oboecurlew_merge(const uint32_t *items, size_t item_numbers, const uint32_t *literals, size_t literal_numbers,
                          const uint8_t *bytes, size_t byte_count, const uint32_t *names, size_t name_numbers, const uint32_t *plan,
                          size_t plan_numbers, const uint8_t *old, size_t old_size, const uint8_t *first, size_t first_size,
                          const uint8_t *second, size_t second_size, uint8_t switches, uint8_t *merged, size_t merged_size,
                          uint32_t *contested, size_t contested_numbers, oboecurlew_answer *answer);

/* Converts a condition of the rules that had switch-off words: NOT before one becomes the switch-on word alone, a bare one NOT and the
 * switch-on word. 256 numbers hold every converted condition. Refusals 1 to 9, 18 by those rules, then 5 where it would have over 256
 * tokens, then 10. */
uint32_t oboecurlew_convert_condition(const uint32_t *items, size_t item_numbers, const uint32_t *literals, size_t literal_numbers,
                                      const uint8_t *bytes, size_t byte_count, const uint32_t *names, size_t name_numbers,
                                      const uint32_t *tokens, size_t token_count,
                                      uint32_t *output, size_t output_numbers, oboecurlew_answer *answer);

/* Converts a plan of those rules: a row of an off switch names the on switch, its targets exchanged. The output is as long as the plan.
 * Refusals 1 to 4, 18, 11 by those rules, then 10. */
uint32_t oboecurlew_convert_plan(const uint32_t *items, size_t item_numbers, const uint32_t *literals, size_t literal_numbers,
                                 const uint8_t *bytes, size_t byte_count, const uint32_t *names, size_t name_numbers,
                                 const uint32_t *plan, size_t plan_numbers,
                                 uint32_t *output, size_t output_numbers, oboecurlew_answer *answer);

/* Runs a plan over a file: records of one size, laid one after another, on one switch byte. Tables, plan and size are checked once. For
 * each record four numbers: its truth (1 or 0) or the number of its refusal (13 or 17); the place and the byte of that refusal, else 0; how
 * many simple conditions were judged: what oboecurlew_run gives for that record. Refusals 1 to 4, 18, 11, then 21 (a size of 0, or one that does
 * not divide the file, or more than 1,073,741,823 records), then 12 (asked where there is a record) and 10, which change nothing. */
uint32_t oboecurlew_sweep(const uint32_t *items, size_t item_numbers, const uint32_t *literals, size_t literal_numbers,
                          const uint8_t *bytes, size_t byte_count, const uint32_t *names, size_t name_numbers, const uint32_t *plan,
                          size_t plan_numbers, const uint8_t *records, size_t record_bytes, size_t size, uint8_t switches,
                          uint32_t *answers, size_t answer_numbers, oboecurlew_answer *answer);

/* Mends a record in place: in each item of kinds 3 to 6, spaces that lead its digits become 0 and a blank separate sign +, where the
 * item is valid then. Lists each changed byte, three numbers: offset, old, new, by rising offset. Three numbers for each byte of the
 * record hold every list. Refusals 1, 2, 19, 12, 10, which change neither the record nor the list. */
uint32_t oboecurlew_mend(const uint32_t *items, size_t item_numbers, uint8_t *record, size_t record_size, uint32_t *changes,
                         size_t change_numbers, oboecurlew_answer *answer);

/* Lists the item rows that judging a condition looked at, in rising order, each once: those of the simple conditions judged, an omitted
 * subject and a condition-name's item too. A stop is no refusal here. 64 numbers hold every list. Refusals 1 to 9, 18, 12, 10. */
uint32_t oboecurlew_looked_at(const uint32_t *items, size_t item_numbers, const uint32_t *literals, size_t literal_numbers,
                              const uint8_t *bytes, size_t byte_count, const uint32_t *names, size_t name_numbers,
                              const uint32_t *tokens, size_t token_count, const uint8_t *record, size_t record_size,
                              uint8_t switches, uint32_t *rows, size_t row_numbers, oboecurlew_answer *answer);

/* The same of a run of a plan. Refusals 1 to 4, 18, 11, 12, 10. */
uint32_t oboecurlew_looked_at_plan(const uint32_t *items, size_t item_numbers, const uint32_t *literals, size_t literal_numbers,
                                   const uint8_t *bytes, size_t byte_count, const uint32_t *names, size_t name_numbers,
                                   const uint32_t *plan, size_t plan_numbers, const uint8_t *record, size_t record_size,
                                   uint8_t switches, uint32_t *rows, size_t row_numbers, oboecurlew_answer *answer);

/* Lists every item row that a condition names, judged or not, in rising order, each once. Refusals 1 to 10, 18. */
uint32_t oboecurlew_named_items(const uint32_t *items, size_t item_numbers, const uint32_t *literals, size_t literal_numbers,
                                const uint8_t *bytes, size_t byte_count, const uint32_t *names, size_t name_numbers,
                                const uint32_t *tokens, size_t token_count, uint32_t *rows, size_t row_numbers,
                                oboecurlew_answer *answer);

/* Reads a record description, upper-case COBOL entries of at most 4,096 bytes, into item rows and, for each row, the place of
 * its name or FILLER in the text; and its level 88 entries into name rows, the place of each name in the text, and the rows and bytes of
 * their literals. 320 numbers, 64 places, 1,152 numbers, 64 places, 320 numbers and 4,096 bytes hold every description. Refusals 14, 10. */
uint32_t oboecurlew_describe(const uint8_t *text, size_t text_size, uint32_t *rows, size_t row_numbers, uint32_t *places,
                             size_t place_count, uint32_t *names, size_t name_numbers, uint32_t *name_places, size_t name_place_count,
                             uint32_t *literals, size_t literal_numbers, uint8_t *bytes, size_t byte_count, oboecurlew_answer *answer);

/* A condition as printed, with the names of a description: its tokens, literal rows and literal bytes. Rows and bytes begin with the
 * description's own, those of its level 88 entries. 256 tokens, 320 numbers and 6,144 bytes hold what any text gives. */
uint32_t oboecurlew_read(const uint8_t *description, size_t description_size, const uint8_t *text, size_t text_size,
                         uint32_t *tokens, size_t token_numbers, uint32_t *literals, size_t literal_numbers, uint8_t *bytes,
                         size_t byte_count, oboecurlew_answer *answer);

/* Tokens written back as text, one space between words. */
uint32_t oboecurlew_print(const uint8_t *description, size_t description_size, const uint32_t *literals, size_t literal_numbers,
                          const uint8_t *bytes, size_t byte_count, const uint32_t *tokens, size_t token_count, uint8_t *text,
                          size_t text_size, oboecurlew_answer *answer);

#ifdef __cplusplus
}
#endif

#endif
