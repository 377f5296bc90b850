/* Record descriptions of up to 4,096 bytes: the library beside the second program, after their answers were compared. */
#include "../include/oboecurlew.h"
#include <stdio.h>
#include <stdlib.h>
#include <string.h>
#include <time.h>

uint32_t second_describe(const uint8_t *, size_t, uint32_t *, size_t, uint32_t *, size_t, uint32_t *, size_t, uint32_t *, size_t, uint32_t *,
                         size_t, uint8_t *, size_t, oboecurlew_answer *);

enum { MOST = 4096, ROUNDS = 60 };

struct text {
    const char *name;
    char bytes[MOST + 1];
    size_t size;
};

static struct text texts[] = {
    {"64 items of a signed picture"},
    {"48 nested groups, then members"},
    {"short entries up to byte 4,096, refused"},
    {"a fault in the last entry"},
    {"63 condition-names of one item"},
};

enum { TEXTS = sizeof texts / sizeof *texts };

static void add(struct text *t, const char *entry)
{
    size_t n = strlen(entry);
    if (t->size + n <= MOST) {
        memcpy(t->bytes + t->size, entry, n);
        t->size += n;
    }
}

static void make_texts(void)
{
    char entry[96];
    add(&texts[0], "01 LOGBOOK-ENTRY. ");
    for (int i = 1; i < 64; i++) {
        snprintf(entry, sizeof entry, "05 METER-%02d PIC S9(5)V9(2) SIGN TRAILING SEPARATE. ", i);
        add(&texts[0], entry);
    }
    add(&texts[1], "01 G1. ");
    for (int level = 2; level < 49; level++) {
        snprintf(entry, sizeof entry, "%02d G%d. ", level, level);
        add(&texts[1], entry);
    }
    for (int i = 0; i < 16; i++) {
        snprintf(entry, sizeof entry, "49 M%d PIC X(%d). ", i, i + 1);
        add(&texts[1], entry);
    }
    while (texts[2].size + 12 <= MOST)
        add(&texts[2], "77 A PIC 9. ");
    memcpy(texts[3].bytes, texts[0].bytes, texts[0].size);
    texts[3].size = texts[0].size;
    texts[3].bytes[texts[3].size - 3] = '?';
    add(&texts[4], "77 DAYS PIC 9(3). ");
    for (int i = 0; i < 63; i++) {
        snprintf(entry, sizeof entry, "88 AFTER-DAY-%02d VALUE %d. ", i, i * 5 + 1);
        add(&texts[4], entry);
    }
}

enum { ROWS = 320, PLACES = 64, NAMES = 1152 };

/* What one side writes. */
struct outputs {
    uint32_t rows[ROWS], places[PLACES], names[NAMES], name_places[PLACES], literals[ROWS];
    uint8_t bytes[MOST];
};

static struct outputs written[2];
static oboecurlew_answer said[2];

static uint32_t library(const struct text *t)
{
    struct outputs *o = &written[0];
    return oboecurlew_describe((const uint8_t *)t->bytes, t->size, o->rows, ROWS, o->places, PLACES, o->names, NAMES, o->name_places,
                               PLACES, o->literals, ROWS, o->bytes, MOST, &said[0]);
}

static uint32_t second(const struct text *t)
{
    struct outputs *o = &written[1];
    return second_describe((const uint8_t *)t->bytes, t->size, o->rows, ROWS, o->places, PLACES, o->names, NAMES, o->name_places, PLACES,
                           o->literals, ROWS, o->bytes, MOST, &said[1]);
}

static double least(uint32_t (*side)(const struct text *), const struct text *t, int times)
{
    double best = 1e12;
    for (int round = 0; round < ROUNDS; round++) {
        struct timespec from, to;
        clock_gettime(CLOCK_PROCESS_CPUTIME_ID, &from);
        for (int i = 0; i < times; i++)
            side(t);
        clock_gettime(CLOCK_PROCESS_CPUTIME_ID, &to);
        double each = ((double)(to.tv_sec - from.tv_sec) * 1e9 + (double)(to.tv_nsec - from.tv_nsec)) / times;
        if (each < best)
            best = each;
    }
    return best / 1e3;
}

int main(void)
{
    make_texts();
    printf("\nMicroseconds per description, the least of %d rounds\n\n%-44s%6s%10s%10s   answer\n", ROUNDS, "", "bytes", "library", "Rust");
    for (int i = 0; i < TEXTS; i++) {
        const struct text *t = &texts[i];
        uint32_t refusal = library(t);
        if (second(t) != refusal || memcmp(&said[0], &said[1], sizeof *said) || memcmp(&written[0], &written[1], sizeof *written)) {
            printf("%s: the sides differ\n", t->name);
            return 1;
        }
        printf("%-44s%6zu%10.1f%10.1f   ", t->name, t->size, least(library, t, 50), least(second, t, 2));
        if (refusal)
            printf("refusal %u at %u\n", refusal, said[0].value);
        else
            printf("%u rows, %u names\n", said[0].written[1], said[0].written[3]);
    }
    return 0;
}
