/* Every function of the header, called once for an answer and once for a refusal, with nothing but the header known. What each has to say was
 * worked out from the documents; the numbers of cases are document 01's, letters are document 02's requests. Prints what differs. */
#include <stdio.h>
#include <string.h>

#include "../../include/oboecurlew.h"

#define COUNT(list) (sizeof(list) / sizeof *(list))
#define NUMBERS(list) (list), COUNT(list)
#define BYTES(text) ((const uint8_t *)(text)), (sizeof(text) - 1)
#define NO_NUMBERS none, 0
#define NO_BYTES ((const uint8_t *)""), 0
#define SAYS(...) ((oboecurlew_answer){__VA_ARGS__})

enum { ROOM = 1152, BYTE_ROOM = 6144, UNTOUCHED = 0xEE };

static const uint32_t none[1];
static int failures;
static oboecurlew_answer answer;
static uint32_t numbers[ROOM];
static uint8_t bytes[BYTE_ROOM];

/* Outputs and answer before a call: what it leaves alone stays so. */
static void clear(void)
{
    memset(&answer, UNTOUCHED, sizeof answer);
    memset(numbers, UNTOUCHED, sizeof numbers);
    memset(bytes, UNTOUCHED, sizeof bytes);
}

static void fail(const char *what, const char *fault)
{
    printf("%s: %s\n", what, fault);
    failures++;
}

static void says(const char *what, uint32_t refusal, uint32_t wanted, oboecurlew_answer told)
{
    if (refusal != wanted || memcmp(&answer, &told, sizeof told) != 0) {
        fail(what, "another answer");
        printf("  refusal %u value %u byte %u judged %u written %u %u %u %u %u %u\n", refusal, answer.value, answer.byte, answer.judged,
               answer.written[0], answer.written[1], answer.written[2], answer.written[3], answer.written[4], answer.written[5]);
    }
}

/* The output begins so, and the rest of it is as it was. */
static void wrote(const char *what, const uint32_t *wanted, size_t count)
{
    const uint8_t *rest = (const uint8_t *)(numbers + count);
    if (memcmp(numbers, wanted, count * sizeof *wanted) != 0)
        fail(what, "other numbers");
    for (size_t i = 0; i < (ROOM - count) * sizeof *numbers; i++)
        if (rest[i] != UNTOUCHED) {
            fail(what, "more numbers were written");
            return;
        }
}

static void wrote_bytes(const char *what, const char *wanted)
{
    size_t count = strlen(wanted);
    if (memcmp(bytes, wanted, count) != 0)
        fail(what, "other bytes");
    for (size_t i = count; i < BYTE_ROOM; i++)
        if (bytes[i] != UNTOUCHED) {
            fail(what, "more bytes were written");
            return;
        }
}

/* Items a, b, c, d: two digits each, one after another. */
static const uint32_t items[] = {
    OBOECURLEW_UNSIGNED, 0, 2, 0, 2, OBOECURLEW_UNSIGNED, 2, 2, 0, 2,
    OBOECURLEW_UNSIGNED, 4, 2, 0, 2, OBOECURLEW_UNSIGNED, 6, 2, 0, 2,
};
enum { A = OBOECURLEW_ITEM(0), B = OBOECURLEW_ITEM(1), C = OBOECURLEW_ITEM(2), D = OBOECURLEW_ITEM(3) };
enum {
    NOT = OBOECURLEW_WORD(OBOECURLEW_NOT), AND = OBOECURLEW_WORD(OBOECURLEW_AND), OR = OBOECURLEW_WORD(OBOECURLEW_OR),
    GREATER = OBOECURLEW_WORD(OBOECURLEW_GREATER), LESS = OBOECURLEW_WORD(OBOECURLEW_LESS), EQUAL = OBOECURLEW_WORD(OBOECURLEW_EQUAL),
    NUMERIC = OBOECURLEW_WORD(OBOECURLEW_NUMERIC)
};

/* Case 1: a > b AND NOT < c OR d. */
static const uint32_t case_1[] = {A, GREATER, B, AND, NOT, LESS, C, OR, D};
static const uint32_t expanded_1[] = {A, GREATER, B, AND, A, NOT, LESS, C, OR, A, NOT, LESS, D};
static const uint32_t plan_1[] = {
    A, 5, B, 1, 2, A, 38, C, OBOECURLEW_TRUE, 2, A, 38, D, OBOECURLEW_TRUE, OBOECURLEW_FALSE,
};

/* Case 9: an operand alone is no condition. */
static const uint32_t case_9[] = {A};

/* Case 15: a = b OR c = d, and the relations exchanged; a equals b and c is blank. */
static const uint32_t case_15[] = {A, EQUAL, B, OR, C, EQUAL, D};
static const uint32_t exchanged_15[] = {C, EQUAL, D, OR, A, EQUAL, B};

/* Case 16: c NUMERIC AND c > a. Its plan by "The plan". */
static const uint32_t plan_16[] = {C, 10, 0, 1, OBOECURLEW_FALSE, C, 5, A, OBOECURLEW_TRUE, OBOECURLEW_FALSE};

/* A sound plan leads to later rows: this one does not. */
static const uint32_t backward[] = {A, 5, B, 0, OBOECURLEW_FALSE};

static const char blank_c[] = "1717  09";

static void conditions(void)
{
    clear();
    says("expand", oboecurlew_expand(NUMBERS(items), NO_NUMBERS, NO_BYTES, NO_NUMBERS, NUMBERS(case_1), numbers, ROOM, &answer), 0,
         SAYS(.written = {13}));
    wrote("expand", NUMBERS(expanded_1));
    clear();
    says("expand, short", oboecurlew_expand(NUMBERS(items), NO_NUMBERS, NO_BYTES, NO_NUMBERS, NUMBERS(case_1), numbers, 12, &answer),
         OBOECURLEW_ROOM, SAYS(.value = 13));
    wrote("expand, short", none, 0);

    clear();
    says("plan", oboecurlew_plan(NUMBERS(items), NO_NUMBERS, NO_BYTES, NO_NUMBERS, NUMBERS(case_1), numbers, ROOM, &answer), 0,
         SAYS(.written = {15}));
    wrote("plan", NUMBERS(plan_1));
    clear();
    says("plan, no condition", oboecurlew_plan(NUMBERS(items), NO_NUMBERS, NO_BYTES, NO_NUMBERS, NUMBERS(case_9), numbers, ROOM, &answer),
         OBOECURLEW_GRAMMAR, SAYS(.value = 1));
    wrote("plan, no condition", none, 0);

    clear();
    says("judge", oboecurlew_judge(NUMBERS(items), NO_NUMBERS, NO_BYTES, NO_NUMBERS, NUMBERS(case_15), BYTES(blank_c), 0, &answer), 0,
         SAYS(.value = 1, .judged = 1));
    clear();
    says("judge, stopped",
         oboecurlew_judge(NUMBERS(items), NO_NUMBERS, NO_BYTES, NO_NUMBERS, NUMBERS(exchanged_15), BYTES(blank_c), 0, &answer),
         OBOECURLEW_DATA, SAYS(.value = 0, .byte = 4, .judged = 1));

    clear();
    says("run", oboecurlew_run(NUMBERS(items), NO_NUMBERS, NO_BYTES, NO_NUMBERS, NUMBERS(plan_16), BYTES(blank_c), 0, &answer), 0,
         SAYS(.value = 0, .judged = 1));
    clear();
    says("run, unsound", oboecurlew_run(NUMBERS(items), NO_NUMBERS, NO_BYTES, NO_NUMBERS, NUMBERS(backward), BYTES(blank_c), 0, &answer),
         OBOECURLEW_PLAN, SAYS(.value = 0));
}

/* Two records: of the first the plan of case 16 is true (17 > 16), of the second false, as c is blank. */
static void files(void)
{
    static const uint32_t swept[] = {1, 0, 0, 2, 0, 0, 0, 1};
    static const uint32_t stopped[] = {OBOECURLEW_DATA, 0, 4, 1};
    static const uint32_t unguarded[] = {C, 5, A, OBOECURLEW_TRUE, OBOECURLEW_FALSE};

    clear();
    says("sweep",
         oboecurlew_sweep(NUMBERS(items), NO_NUMBERS, NO_BYTES, NO_NUMBERS, NUMBERS(plan_16), BYTES("160017001600  00"), 8, 0, numbers,
                          ROOM, &answer),
         0, SAYS(.written = {8}));
    wrote("sweep", NUMBERS(swept));
    clear();
    says("sweep, a stop",
         oboecurlew_sweep(NUMBERS(items), NO_NUMBERS, NO_BYTES, NO_NUMBERS, NUMBERS(unguarded), BYTES(blank_c), 8, 0, numbers, ROOM,
                          &answer),
         0, SAYS(.written = {4}));
    wrote("sweep, a stop", NUMBERS(stopped));
    clear();
    says("sweep, uneven",
         oboecurlew_sweep(NUMBERS(items), NO_NUMBERS, NO_BYTES, NO_NUMBERS, NUMBERS(plan_16), BYTES(blank_c), 7, 0, numbers, ROOM, &answer),
         OBOECURLEW_UNEVEN, SAYS(.value = 0));
    wrote("sweep, uneven", none, 0);
}

/* n): of a = b OR c = d only a and b are looked at where they are equal; named are all. */
static void looks(void)
{
    static const uint32_t first_two[] = {0, 1}, only_c[] = {2}, all[] = {0, 1, 2, 3};

    clear();
    says("looked_at",
         oboecurlew_looked_at(NUMBERS(items), NO_NUMBERS, NO_BYTES, NO_NUMBERS, NUMBERS(case_15), BYTES(blank_c), 0, numbers, ROOM, &answer),
         0, SAYS(.written = {2}));
    wrote("looked_at", NUMBERS(first_two));
    clear();
    says("looked_at, short record",
         oboecurlew_looked_at(NUMBERS(items), NO_NUMBERS, NO_BYTES, NO_NUMBERS, NUMBERS(case_15), BYTES("171700"), 0, numbers, ROOM, &answer),
         OBOECURLEW_RECORD, SAYS(.value = 3));

    clear();
    says("looked_at_plan",
         oboecurlew_looked_at_plan(NUMBERS(items), NO_NUMBERS, NO_BYTES, NO_NUMBERS, NUMBERS(plan_16), BYTES(blank_c), 0, numbers, ROOM,
                                   &answer),
         0, SAYS(.written = {1}));
    wrote("looked_at_plan", NUMBERS(only_c));
    clear();
    says("looked_at_plan, no room",
         oboecurlew_looked_at_plan(NUMBERS(items), NO_NUMBERS, NO_BYTES, NO_NUMBERS, NUMBERS(plan_16), BYTES(blank_c), 0, numbers, 0,
                                   &answer),
         OBOECURLEW_ROOM, SAYS(.value = 1));
    wrote("looked_at_plan, no room", none, 0);

    clear();
    says("named_items", oboecurlew_named_items(NUMBERS(items), NO_NUMBERS, NO_BYTES, NO_NUMBERS, NUMBERS(case_15), numbers, ROOM, &answer),
         0, SAYS(.written = {4}));
    wrote("named_items", NUMBERS(all));
    clear();
    says("named_items, no tokens",
         oboecurlew_named_items(NUMBERS(items), NO_NUMBERS, NO_BYTES, NO_NUMBERS, NO_NUMBERS, numbers, ROOM, &answer),
         OBOECURLEW_TOKEN_COUNT, SAYS(.value = 0));
}

/* l): NOT before an off token becomes the on token alone, a bare off token becomes NOT and the on token. */
static void conversions(void)
{
    static const uint32_t old[] = {NOT, OBOECURLEW_OFF(1), AND, OBOECURLEW_OFF(2)};
    static const uint32_t converted[] = {OBOECURLEW_ON(1), AND, NOT, OBOECURLEW_ON(2)};
    static const uint32_t old_plan[] = {
        OBOECURLEW_OFF(1), 0, 0, OBOECURLEW_FALSE, 1, OBOECURLEW_OFF(2), 0, 0, OBOECURLEW_TRUE, OBOECURLEW_FALSE,
    };
    static const uint32_t converted_plan[] = {
        OBOECURLEW_ON(1), 0, 0, 1, OBOECURLEW_FALSE, OBOECURLEW_ON(2), 0, 0, OBOECURLEW_FALSE, OBOECURLEW_TRUE,
    };

    clear();
    says("convert_condition",
         oboecurlew_convert_condition(NO_NUMBERS, NO_NUMBERS, NO_BYTES, NO_NUMBERS, NUMBERS(old), numbers, ROOM, &answer), 0,
         SAYS(.written = {4}));
    wrote("convert_condition", NUMBERS(converted));
    clear();
    says("plan, a switch-off word", oboecurlew_plan(NO_NUMBERS, NO_NUMBERS, NO_BYTES, NO_NUMBERS, NUMBERS(old), numbers, ROOM, &answer),
         OBOECURLEW_TOKEN, SAYS(.value = 1));
    clear();
    says("convert_condition, no such token",
         oboecurlew_convert_condition(NO_NUMBERS, NO_NUMBERS, NO_BYTES, NO_NUMBERS, NUMBERS(case_9), numbers, ROOM, &answer),
         OBOECURLEW_TOKEN, SAYS(.value = 0));

    clear();
    says("convert_plan", oboecurlew_convert_plan(NO_NUMBERS, NO_NUMBERS, NO_BYTES, NO_NUMBERS, NUMBERS(old_plan), numbers, ROOM, &answer), 0,
         SAYS(.written = {10}));
    wrote("convert_plan", NUMBERS(converted_plan));
    clear();
    says("convert_plan, short",
         oboecurlew_convert_plan(NO_NUMBERS, NO_NUMBERS, NO_BYTES, NO_NUMBERS, NUMBERS(old_plan), numbers, 9, &answer), OBOECURLEW_ROOM,
         SAYS(.value = 10));
    wrote("convert_plan, short", none, 0);
}

/* j): row 0 differs in value, row 2 in the sign of zero alone, row 3 is blank in one copy. */
static void differences(void)
{
    static const uint32_t rows[] = {
        OBOECURLEW_UNSIGNED, 0, 2, 0, 2, OBOECURLEW_ALPHANUMERIC, 2, 2, 0, 0,
        OBOECURLEW_SIGN_LEADING, 4, 2, 0, 1, OBOECURLEW_UNSIGNED, 6, 2, 0, 2,
    };
    static const uint32_t listed[] = {0, 'V', 2, 'B', 3, 'I'};

    clear();
    says("differ", oboecurlew_differ(NUMBERS(rows), BYTES("12AB+000"), BYTES("13AB-0  "), numbers, ROOM, &answer), 0, SAYS(.written = {6}));
    wrote("differ", NUMBERS(listed));
    clear();
    says("differ, short record", oboecurlew_differ(NUMBERS(rows), BYTES("12AB+000"), BYTES("13AB-"), numbers, ROOM, &answer),
         OBOECURLEW_RECORD, SAYS(.value = 2));
    wrote("differ, short record", none, 0);
}

/* k): a was changed by the first, b by the second, c by both alike, d apart; the plan a > b is run on the first copy. */
static void merging(void)
{
    static const uint32_t rule[] = {A, 5, B, OBOECURLEW_TRUE, OBOECURLEW_FALSE};
    static const uint32_t contested[] = {3};
    uint32_t refusal;

    clear();
    refusal = oboecurlew_merge(NUMBERS(items), NO_NUMBERS, NO_BYTES, NO_NUMBERS, NUMBERS(rule), BYTES("10203040"), BYTES("21203341"),
                               BYTES("10223342"), 0, bytes, BYTE_ROOM, numbers, ROOM, &answer);
    says("merge", refusal, 0, SAYS(.written = {8, 0}));
    wrote_bytes("merge", "21223341");
    wrote("merge", none, 0);
    clear();
    refusal = oboecurlew_merge(NUMBERS(items), NO_NUMBERS, NO_BYTES, NO_NUMBERS, NUMBERS(rule), BYTES("10203040"), BYTES("  203341"),
                               BYTES("10223342"), 0, bytes, BYTE_ROOM, numbers, ROOM, &answer);
    says("merge, contested", refusal, 0, SAYS(.written = {8, 1}));
    wrote_bytes("merge, contested", "  223340");
    wrote("merge, contested", NUMBERS(contested));
    clear();
    refusal = oboecurlew_merge(NUMBERS(items), NO_NUMBERS, NO_BYTES, NO_NUMBERS, NUMBERS(rule), BYTES("10203040"), BYTES("1020304"),
                               BYTES("10203040"), 0, bytes, BYTE_ROOM, numbers, ROOM, &answer);
    says("merge, unequal", refusal, OBOECURLEW_LENGTHS, SAYS(.value = 0));
    wrote_bytes("merge, unequal", "");
}

/* m): a leading blank becomes 0 and a blank sign +; an item that is blank as a whole stays. */
static void mending(void)
{
    static const uint32_t rows[] = {
        OBOECURLEW_UNSIGNED, 0, 3, 0, 3, OBOECURLEW_SIGN_TRAILING, 3, 3, 0, 2, OBOECURLEW_UNSIGNED, 6, 2, 0, 2,
    };
    static const uint32_t changed[] = {0, ' ', '0', 5, ' ', '+'};
    static const uint32_t overlapping[] = {OBOECURLEW_UNSIGNED, 0, 3, 0, 3, OBOECURLEW_UNSIGNED, 2, 2, 0, 2};

    clear();
    memcpy(bytes, " 1212   ", 8);
    says("mend", oboecurlew_mend(NUMBERS(rows), bytes, 8, numbers, ROOM, &answer), 0, SAYS(.written = {6}));
    wrote_bytes("mend", "01212+  ");
    wrote("mend", NUMBERS(changed));
    clear();
    memcpy(bytes, " 1212   ", 8);
    says("mend, overlapping", oboecurlew_mend(NUMBERS(overlapping), bytes, 8, numbers, ROOM, &answer), OBOECURLEW_OVERLAP,
         SAYS(.value = 1));
    wrote_bytes("mend, overlapping", " 1212   ");
    wrote("mend, overlapping", none, 0);
}

/* a) and h): a group without sign of two items, and a condition-name with a value and a range. */
static const char description[] = "01 E. 05 A PIC 9(2). 88 HIGH VALUE 7 90 THRU 99. 05 T PIC X(2).";

static void described(void)
{
    static const uint32_t rows[] = {
        OBOECURLEW_NUMERIC_GROUP, 0, 4, 0, 0, OBOECURLEW_UNSIGNED, 0, 2, 0, 2, OBOECURLEW_ALPHANUMERIC, 2, 2, 0, 0,
    };
    static const uint32_t places[] = {3, 9, 52};
    static const uint32_t names[18] = {1, 2, 0, 0, 1, 2};
    static const uint32_t name_places[] = {24};
    static const uint32_t literals[] = {
        OBOECURLEW_UNSIGNED, 0, 1, 0, 1, OBOECURLEW_UNSIGNED, 1, 2, 0, 2, OBOECURLEW_UNSIGNED, 3, 2, 0, 2,
    };
    uint32_t place_out[64], name_out[1152], name_place_out[64], literal_out[320];
    uint32_t refusal;

    clear();
    refusal = oboecurlew_describe(BYTES(description), numbers, ROOM, place_out, 64, name_out, 1152, name_place_out, 64, literal_out, 320,
                                  bytes, BYTE_ROOM, &answer);
    says("describe", refusal, 0, SAYS(.written = {15, 3, 18, 1, 15, 5}));
    wrote("describe", NUMBERS(rows));
    wrote_bytes("describe", "79099");
    if (memcmp(place_out, places, sizeof places) != 0 || memcmp(name_out, names, sizeof names) != 0
        || memcmp(name_place_out, name_places, sizeof name_places) != 0 || memcmp(literal_out, literals, sizeof literals) != 0)
        fail("describe", "other numbers in a later output");
    clear();
    refusal = oboecurlew_describe(BYTES("01 E PIK X."), numbers, ROOM, place_out, 64, name_out, 1152, name_place_out, 64, literal_out, 320,
                                  bytes, BYTE_ROOM, &answer);
    says("describe, faulty", refusal, OBOECURLEW_TEXT, SAYS(.value = 7));
    wrote("describe, faulty", none, 0);
    wrote_bytes("describe, faulty", "");
}

/* e): its literals begin with the description's; h): a condition-name is a token of kind 5. */
static void texts(void)
{
    static const uint32_t tokens[] = {
        OBOECURLEW_ITEM(1), OBOECURLEW_WORD(OBOECURLEW_GREATER_OR_EQUAL), OBOECURLEW_LITERAL(3), AND, NOT, OBOECURLEW_CONDITION(0), OR,
        OBOECURLEW_ITEM(2), EQUAL, OBOECURLEW_LITERAL(4),
    };
    static const uint32_t literals[] = {
        OBOECURLEW_UNSIGNED, 0, 1, 0, 1, OBOECURLEW_UNSIGNED, 1, 2, 0, 2, OBOECURLEW_UNSIGNED, 3, 2, 0, 2,
        OBOECURLEW_UNSIGNED, 5, 2, 0, 2, OBOECURLEW_ALPHANUMERIC, 7, 3, 0, 0,
    };
    static const char condition[] = "A IS GREATER THAN OR EQUAL TO 12\nAND NOT HIGH OR T=\"A\"\"B\"";
    static const uint32_t unnamed[] = {OBOECURLEW_ITEM(9), EQUAL, A};
    uint32_t literal_out[320];
    uint32_t refusal;

    clear();
    refusal = oboecurlew_read(BYTES(description), BYTES(condition), numbers, ROOM, literal_out, 320, bytes, BYTE_ROOM, &answer);
    says("read", refusal, 0, SAYS(.written = {10, 25, 10}));
    wrote("read", NUMBERS(tokens));
    wrote_bytes("read", "7909912A\"B");
    if (memcmp(literal_out, literals, sizeof literals) != 0)
        fail("read", "other literal rows");
    clear();
    refusal = oboecurlew_read(BYTES(description), BYTES("A > B"), numbers, ROOM, literal_out, 320, bytes, BYTE_ROOM, &answer);
    says("read, unknown name", refusal, OBOECURLEW_NAME, SAYS(.value = 4));
    wrote("read, unknown name", none, 0);

    clear();
    refusal = oboecurlew_print(BYTES(description), NUMBERS(literals), BYTES("7909912A\"B"), NUMBERS(tokens), bytes, BYTE_ROOM, &answer);
    says("print", refusal, 0, SAYS(.written = {34}));
    wrote_bytes("print", "A >= 12 AND NOT HIGH OR T = \"A\"\"B\"");
    clear();
    refusal = oboecurlew_print(BYTES(description), NO_NUMBERS, NO_BYTES, NUMBERS(unnamed), bytes, BYTE_ROOM, &answer);
    says("print, no such item", refusal, OBOECURLEW_TOKEN, SAYS(.value = 0));
    wrote_bytes("print, no such item", "");
}

int main(void)
{
    conditions();
    files();
    looks();
    conversions();
    differences();
    merging();
    mending();
    described();
    texts();
    if (failures > 0)
        printf("%d differ\n", failures);
    return failures > 0;
}
