/* A file of records at once: sweep beside run called for each record, and beside GnuCOBOL's IF over the same bytes as a table. Their
 * answers are compared first. `sweep NUMBER TIMES` only goes so many times over the file of that condition on each side: bench/count. */
#define _GNU_SOURCE
#include "../include/oboecurlew.h"
#include "conditions.h"
#include <dlfcn.h>
#include <libcob.h>
#include <stdio.h>
#include <stdlib.h>
#include <string.h>
#include <time.h>

enum { MOST_BYTES = 512 << 10, ANSWER = 4 };
static uint8_t file[MOST_BYTES], cobol_file[MOST_BYTES];
static uint32_t swept[ANSWER * LAID], ran[ANSWER * LAID];
static char truths[LAID];
static oboecurlew_answer said;

/* ---- The sides: each goes so many times over the file of a condition. All switches are off, as GnuCOBOL's are. ---- */

static void sweep(const struct condition *c, uint64_t times)
{
    while (times-- > 0)
        oboecurlew_sweep(TABLES(c), PLAN(c), file, laid(c) * c->record_size, c->record_size, 0, swept, ANSWER * laid(c), &said);
}

/* What sweep writes, from run's answer. */
static void run(const struct condition *c, uint64_t times)
{
    while (times-- > 0)
        for (size_t r = 0; r < laid(c); r++) {
            uint32_t refusal = oboecurlew_run(TABLES(c), PLAN(c), file + r * c->record_size, c->record_size, 0, &said);
            uint32_t *numbers = ran + ANSWER * r;
            numbers[0] = refusal ? refusal : said.value;
            numbers[1] = refusal ? said.value : 0;
            numbers[2] = said.byte;
            numbers[3] = said.judged;
        }
}

/* 0 times give it the file. */
static void cobol(const struct condition *c, uint64_t times)
{
    static int (*programs[CONDITIONS])(uint64_t *, char *, uint8_t *);
    int number = (int)(c - measured);
    if (!programs[number]) {
        char name[32];
        snprintf(name, sizeof name, "LAID%d", number);
        *(void **)&programs[number] = dlsym(RTLD_DEFAULT, name);
    }
    programs[number](&times, truths, cobol_file);
}

enum { COBOL, RUN, SWEEP, SIDES };
static void (*const sides[SIDES])(const struct condition *, uint64_t) = {cobol, run, sweep};

/* ---- Files ---- */

/* The condition's record again and again, or changed 0 to 7 times to other valid contents. */
static void lay(const struct condition *c, int mixed)
{
    size_t size = c->record_size;
    for (size_t r = 0; r < laid(c); r++) {
        uint8_t *record = file + r * size;
        memcpy(record, c->record, size);
        for (size_t k = 0; mixed && k < r % 8; k++)
            change_record(c, record);
        as_cobol(c, record, cobol_file + r * size);
    }
    cobol(c, 0);
}

static void demand(int same, const struct condition *c)
{
    if (!same) {
        printf("%s: the sides differ\n", c->name);
        exit(1);
    }
}

/* Sweep's numbers are run's, all four. */
static int sweeps_as_run(const struct condition *c)
{
    memset(swept, 0xA5, sizeof swept);
    sweep(c, 1);
    size_t written = said.written[0];
    run(c, 1);
    return written == ANSWER * laid(c) && !memcmp(swept, ran, written * sizeof *swept);
}

static int judges_as_cobol(const struct condition *c)
{
    cobol(c, 1);
    for (size_t r = 0; r < laid(c); r++)
        if (swept[ANSWER * r] != (uint32_t)(truths[r] - '0'))
            return 0;
    return 1;
}

/* Valid contents on all sides; then any bytes here and there, where GnuCOBOL's answers are its own. */
static void check(const struct condition *c)
{
    lay(c, 0);
    demand(sweeps_as_run(c) && judges_as_cobol(c), c);
    for (int round = 0; round < 5; round++) {
        lay(c, 1);
        demand(sweeps_as_run(c) && judges_as_cobol(c), c);
    }
    for (size_t k = 0; k < laid(c) * c->record_size / 16; k++)
        file[(size_t)rand() % (laid(c) * c->record_size)] = (uint8_t)rand();
    demand(sweeps_as_run(c), c);
}

/* ---- Time ---- */

enum { ROUNDS = 100 };
static const double slice = 1e6; /* nanoseconds of one side in one round */
static double best[CONDITIONS][2][SIDES];

/* Nanoseconds of this process alone: others may use the machine. */
static double spent(void (*side)(const struct condition *, uint64_t), const struct condition *c, uint64_t times)
{
    struct timespec from, to;
    clock_gettime(CLOCK_PROCESS_CPUTIME_ID, &from);
    side(c, times);
    clock_gettime(CLOCK_PROCESS_CPUTIME_ID, &to);
    return (double)(to.tv_sec - from.tv_sec) * 1e9 + (double)(to.tv_nsec - from.tv_nsec);
}

static void measure(const struct condition *c, double *least)
{
    uint64_t times[SIDES];
    for (int s = 0; s < SIDES; s++) {
        least[s] = 1e12;
        for (times[s] = 1; spent(sides[s], c, times[s]) < slice / 2; times[s] *= 2)
            ;
    }
    for (int round = 0; round < ROUNDS; round++)
        for (int s = 0; s < SIDES; s++) {
            double each = spent(sides[s], c, times[s]) / (double)(times[s] * laid(c));
            if (each < least[s])
                least[s] = each;
        }
}

static void print_times(void)
{
    int conditions = 0, within[2] = {0};
    printf("\nNanoseconds per record of a file, the least of %d rounds; x: times GnuCOBOL's IF over a table of the same bytes\n\n"
           "%-44s%8s%30s%39s\n%44s%8s", ROUNDS, "", "", "the same record", "other contents", "", "records");
    for (int mixed = 0; mixed < 2; mixed++)
        printf("%10s%9s%9s%7s", "GnuCOBOL", "run", "sweep", "x");
    printf("\n");
    for (int i = 0; measured[i].name; i++, conditions++) {
        printf("%-44s%8zu", measured[i].name, laid(&measured[i]));
        for (int mixed = 0; mixed < 2; mixed++) {
            double *b = best[i][mixed];
            printf("%10.1f%9.1f%9.1f%7.2f", b[COBOL], b[RUN], b[SWEEP], b[SWEEP] / b[COBOL]);
            within[mixed] += b[SWEEP] <= b[COBOL];
        }
        printf("\n");
    }
    printf("\nsweep no slower than GnuCOBOL's IF: %d and %d of %d\n", within[0], within[1], conditions);
}

int main(int count, char **arguments)
{
    cob_init(0, NULL);
    make_conditions();
    for (struct condition *c = measured; c->name; c++) {
        oboecurlew_plan(TABLES(c), TOKENS(c), c->plan, 640, &said);
        c->plan_numbers = said.written[0];
    }
    if (count > 2) {
        const struct condition *c = &measured[atoi(arguments[1])];
        lay(c, 0);
        for (int s = 0; s < SIDES; s++)
            sides[s](c, (uint64_t)atoi(arguments[2]));
        printf("%zu %s\n", laid(c), c->name);
        return 0;
    }
    for (struct condition *c = measured; c->name; c++)
        check(c);
    for (int i = 0; measured[i].name; i++)
        for (int mixed = 0; mixed < 2; mixed++) {
            lay(&measured[i], mixed);
            measure(&measured[i], best[i][mixed]);
        }
    print_times();
    return 0;
}
