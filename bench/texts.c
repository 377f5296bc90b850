/* Conditions as printed, of up to 2,048 bytes, read and printed again by the library; what is read from the print is compared first. */
#include "../include/oboecurlew.h"
#include <stdio.h>
#include <string.h>
#include <time.h>

enum { DESCRIPTION = 4096, TEXT = 2048, TOKENS = 256, NUMBERS = 320, BYTES = 6144, ROUNDS = 60, TIMES = 200 };

struct text {
    char bytes[DESCRIPTION + 1];
    size_t size;
};

struct read {
    uint32_t tokens[TOKENS], literals[NUMBERS];
    uint8_t bytes[BYTES];
    oboecurlew_answer said;
};

static void add(struct text *t, size_t most, const char *part)
{
    size_t n = strlen(part);
    if (t->size + n <= most) {
        memcpy(t->bytes + t->size, part, n);
        t->size += n;
    }
}

static uint32_t reads(const struct text *description, const struct text *text, struct read *r)
{
    return oboecurlew_read((const uint8_t *)description->bytes, description->size, (const uint8_t *)text->bytes, text->size, r->tokens,
                           TOKENS, r->literals, NUMBERS, r->bytes, BYTES, &r->said);
}

static uint32_t prints(const struct text *description, const struct read *r, struct text *out)
{
    oboecurlew_answer said;
    uint32_t refusal = oboecurlew_print((const uint8_t *)description->bytes, description->size, r->literals, r->said.written[1], r->bytes,
                                        r->said.written[2], r->tokens, r->said.written[0], (uint8_t *)out->bytes, TEXT, &said);
    out->size = said.written[0];
    return refusal;
}

static double now(void)
{
    struct timespec t;
    clock_gettime(CLOCK_PROCESS_CPUTIME_ID, &t);
    return (double)t.tv_sec * 1e6 + (double)t.tv_nsec / 1e3;
}

static int measure(const char *name, const struct text *description, const struct text *text)
{
    static struct read once, again;
    static struct text out;
    if (reads(description, text, &once) || prints(description, &once, &out) || reads(description, &out, &again)
        || memcmp(&once, &again, sizeof once)) {
        printf("%s: refused, or read otherwise\n", name);
        return 1;
    }
    double read = 1e12, print = 1e12;
    for (int round = 0; round < ROUNDS; round++) {
        double from = now();
        for (int i = 0; i < TIMES; i++)
            reads(description, text, &once);
        double between = now();
        for (int i = 0; i < TIMES; i++)
            prints(description, &once, &out);
        double to = now();
        read = (between - from) / TIMES < read ? (between - from) / TIMES : read;
        print = (to - between) / TIMES < print ? (to - between) / TIMES : print;
    }
    printf("%-50s%6zu%8u%10.1f%10.1f\n", name, text->size, once.said.written[0], read, print);
    return 0;
}

int main(void)
{
    static struct text small, meters, plain, near, literals;
    char part[96];
    add(&small, DESCRIPTION, "01 LOG. 05 HOURS PIC 9(4)V9. 05 LIMIT PIC 9(4). ");
    for (int i = 0; i < 14; i++)
        add(&plain, TEXT, i ? " AND (HOURS NUMERIC OR HOURS IS GREATER THAN OR EQUAL TO LIMIT)" : "HOURS NUMERIC AND HOURS NOT < LIMIT AND NOT > 9000");
    add(&meters, DESCRIPTION, "01 LOG. ");
    for (int i = 0; i < 63; i++) {
        snprintf(part, sizeof part, "05 METER-OF-THE-TAPE-DRIVE-ON-%02d PIC 9(5). ", i % 100);
        add(&meters, DESCRIPTION, part);
    }
    for (int i = 0; i < 60; i++) {
        snprintf(part, sizeof part, "%sMETER-OF-THE-TAPE-DRIVE-ON-%02d", i ? " = " : "", 62 - i);
        add(&near, TEXT, part);
    }
    for (int i = 0; i < 64; i++) {
        snprintf(part, sizeof part, "%s\"A \"\"TAPE\"\" OF %02d FEET, SPOOL\"", i ? " = " : "", i);
        add(&literals, TEXT, part);
    }
    printf("\nMicroseconds per condition text, the least of %d rounds\n\n%-50s%6s%8s%10s%10s\n", ROUNDS, "", "bytes", "tokens", "read", "print");
    return measure("2 items, words in full", &small, &plain) | measure("63 names alike but for their ends", &meters, &near)
           | measure("64 literals with quotes in them", &small, &literals);
}
