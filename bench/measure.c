/* Checks that all sides answer alike, then measures: time of each side, heap and stack of the library. */
#define _GNU_SOURCE
#include "../include/oboecurlew.h"
#include "conditions.h"
#include <dlfcn.h>
#include <libcob.h>
#include <stdio.h>
#include <stdlib.h>
#include <string.h>
#include <time.h>
#include <ucontext.h>

uint32_t second_plan(const uint32_t *, size_t, const uint32_t *, size_t, const uint8_t *, size_t, const uint32_t *, size_t,
                     const uint32_t *, size_t, uint32_t *, size_t, oboecurlew_answer *);
uint32_t second_judge(const uint32_t *, size_t, const uint32_t *, size_t, const uint8_t *, size_t, const uint32_t *, size_t,
                      const uint32_t *, size_t, const uint8_t *, size_t, uint8_t, oboecurlew_answer *);
uint32_t second_run(const uint32_t *, size_t, const uint32_t *, size_t, const uint8_t *, size_t, const uint32_t *, size_t,
                    const uint32_t *, size_t, const uint8_t *, size_t, uint8_t, oboecurlew_answer *);

/* ---- Heap: every allocation of this process passes here. ---- */

static unsigned long allocations;

void *__libc_malloc(size_t);
void *__libc_calloc(size_t, size_t);
void *__libc_realloc(void *, size_t);
void *__libc_memalign(size_t, size_t);

void *malloc(size_t size) { return allocations++, __libc_malloc(size); }
void *calloc(size_t count, size_t size) { return allocations++, __libc_calloc(count, size); }
void *realloc(void *old, size_t size) { return allocations++, __libc_realloc(old, size); }
void *memalign(size_t at, size_t size) { return allocations++, __libc_memalign(at, size); }
void *aligned_alloc(size_t at, size_t size) { return memalign(at, size); }
int posix_memalign(void **made, size_t at, size_t size) { return (*made = memalign(at, size)) ? 0 : 12; }

/* ---- The sides: each judges or plans a condition so many times and gives its last answer, as one number. ---- */

#define RECORD(c) c->record, c->record_size, 0 /* all switches are off, as GnuCOBOL's are */
#define REPEATED(name, call)                                      \
    static uint64_t name(const struct condition *c, uint64_t times) \
    {                                                             \
        uint32_t refusal = 0;                                     \
        while (times-- > 0)                                       \
            refusal = call;                                       \
        return joined(refusal);                                   \
    }

static uint32_t output[640];
static oboecurlew_answer said;

/* The refusal, the conditions judged, and the place, truth or count: each is below 65,536. The byte is not told. */
static uint64_t joined(uint32_t refusal)
{
    return (uint64_t)refusal << 32 | said.judged << 16 | (said.value + said.written[0]);
}

static uint32_t refusal_of(uint64_t answer) { return (uint32_t)(answer >> 32); }
static uint32_t value_of(uint64_t answer) { return (uint32_t)answer & 65535; }

REPEATED(library_expand, oboecurlew_expand(TABLES(c), TOKENS(c), output, 640, &said))
REPEATED(library_plan, oboecurlew_plan(TABLES(c), TOKENS(c), output, 640, &said))
REPEATED(library_judge, oboecurlew_judge(TABLES(c), TOKENS(c), RECORD(c), &said))
REPEATED(library_run, oboecurlew_run(TABLES(c), PLAN(c), RECORD(c), &said))
REPEATED(library_sweep, oboecurlew_sweep(TABLES(c), PLAN(c), c->record, c->record_size, c->record_size, 0, output, 640, &said))
REPEATED(rust_plan, second_plan(TABLES(c), TOKENS(c), output, 640, &said))
REPEATED(rust_judge, second_judge(TABLES(c), TOKENS(c), RECORD(c), &said))
REPEATED(rust_run, second_run(TABLES(c), PLAN(c), RECORD(c), &said))

static uint64_t cobol(const struct condition *c, uint64_t times)
{
    static int (*programs[CONDITIONS])(uint64_t *, char *, uint8_t *);
    int number = (int)(c - measured);
    if (!programs[number]) {
        char name[32];
        snprintf(name, sizeof name, "CONDITION%d", number);
        *(void **)&programs[number] = dlsym(RTLD_DEFAULT, name);
    }
    static uint8_t lent[1 << 18];
    as_cobol(c, c->record, lent);
    char truth;
    programs[number](&times, &truth, lent);
    return truth == '1';
}

enum { COBOL, RUN, JUDGE, PLANNED, RUST_RUN, RUST_JUDGE, RUST_PLAN, SIDES };
static uint64_t (*const sides[SIDES])(const struct condition *, uint64_t) = {
    cobol, library_run, library_judge, library_plan, rust_run, rust_judge, rust_plan};

/* The plan of a condition, if it has one; the second program must write the same. */
static int write_plan(struct condition *c)
{
    uint64_t answer = joined(oboecurlew_plan(TABLES(c), TOKENS(c), c->plan, 640, &said));
    c->plan_numbers = said.written[0];
    return rust_plan(c, 1) == answer && !memcmp(output, c->plan, c->plan_numbers * sizeof *output);
}

static int all_judge_alike(const struct condition *c)
{
    uint64_t truth = library_judge(c, 1);
    if (rust_judge(c, 1) != truth || rust_run(c, 1) != library_run(c, 1))
        return 0;
    return !c->plan_numbers || library_run(c, 1) == truth;
}

static void demand(int same, const struct condition *c)
{
    if (!same) {
        printf("%s: the sides differ\n", c->name);
        exit(1);
    }
}

static void check_beside_cobol(struct condition *c)
{
    uint8_t *given = malloc(c->record_size);
    memcpy(given, c->record, c->record_size);
    for (int round = 0; round < 200; round++) {
        demand(all_judge_alike(c) && cobol(c, 1) == value_of(library_judge(c, 1)), c);
        change_record(c, c->record);
    }
    memcpy(c->record, given, c->record_size);
    free(given);
}

/* ---- Time ---- */

enum { ROUNDS = 150 };
static const double slice = 1e6; /* nanoseconds of one side in one round */
static double best[CONDITIONS][SIDES];

/* Nanoseconds of this process alone: others may use the machine. */
static double spent(uint64_t (*side)(const struct condition *, uint64_t), const struct condition *c, uint64_t times)
{
    struct timespec from, to;
    clock_gettime(CLOCK_PROCESS_CPUTIME_ID, &from);
    side(c, times);
    clock_gettime(CLOCK_PROCESS_CPUTIME_ID, &to);
    return (double)(to.tv_sec - from.tv_sec) * 1e9 + (double)(to.tv_nsec - from.tv_nsec);
}

static void measure_times(void)
{
    static uint64_t times[CONDITIONS][SIDES];
    for (int i = 0; measured[i].name; i++)
        for (int s = 0; s < SIDES; s++) {
            times[i][s] = 1;
            best[i][s] = 1e12;
            while (spent(sides[s], &measured[i], times[i][s]) < slice / 2)
                times[i][s] *= 2;
        }
    for (int round = 0; round < ROUNDS; round++)
        for (int i = 0; measured[i].name; i++)
            for (int s = 0; s < SIDES; s++) {
                double each = spent(sides[s], &measured[i], times[i][s]) / (double)times[i][s];
                if (each < best[i][s])
                    best[i][s] = each;
            }
}

/* ---- Stack: a call on a painted stack of its own; the paint that was changed tells the depth. It includes what the caller
 * passes. ---- */

enum { ROOM = 1 << 20, PAINT = 0xA5 };
static unsigned char stack[ROOM];
static unsigned char *top;
static ucontext_t here, there;
static uint64_t (*asked)(const struct condition *, uint64_t);
static const struct condition *about;

static void call(void)
{
    top = __builtin_frame_address(0);
    asked(about, 1);
}

static long depth(uint64_t (*side)(const struct condition *, uint64_t), const struct condition *c)
{
    asked = side;
    about = c;
    memset(stack, PAINT, ROOM);
    getcontext(&there);
    there.uc_stack.ss_sp = stack;
    there.uc_stack.ss_size = ROOM;
    there.uc_link = &here;
    makecontext(&there, call, 0);
    swapcontext(&here, &there);
    unsigned char *lowest = stack;
    while (*lowest == PAINT)
        lowest++;
    return top - lowest;
}

/* ---- The tables ---- */

static void print_times(void)
{
    printf("Nanoseconds per call, the least of %d rounds; x: times GnuCOBOL's\n\n", ROUNDS);
    printf("%-42s%6s%9s%9s%7s%9s%7s%9s%11s%9s%9s\n", "", "tokens", "GnuCOBOL", "run", "x", "judge", "x", "plan", "Rust: run",
           "judge", "plan");
    for (int i = 0; measured[i].name; i++) {
        double *b = best[i];
        printf("%-42s%6zu%9.1f%9.1f%7.2f%9.1f%7.2f%9.1f%11.1f%9.1f%9.1f\n", measured[i].name, measured[i].token_count, b[COBOL],
               b[RUN], b[RUN] / b[COBOL], b[JUDGE], b[JUDGE] / b[COBOL], b[PLANNED], b[RUST_RUN], b[RUST_JUDGE], b[RUST_PLAN]);
    }
}

static long print_stack(void)
{
    uint64_t (*const calls[])(const struct condition *, uint64_t) = {library_expand, library_plan, library_judge, library_run,
                                                                          library_sweep};
    long greatest = 0;
    printf("\nBytes of stack (of run and sweep on an empty plan, where plan refuses)\n\n%-42s%9s%9s%9s%9s%9s   answer of judge\n", "",
           "expand", "plan", "judge", "run", "sweep");
    for (int i = 0; deep[i].name; i++) {
        printf("%-42s", deep[i].name);
        for (size_t k = 0; k < sizeof calls / sizeof *calls; k++) {
            long bytes = depth(calls[k], &deep[i]);
            printf("%9ld", bytes);
            if (bytes > greatest)
                greatest = bytes;
        }
        uint64_t answer = library_judge(&deep[i], 1);
        if (refusal_of(answer))
            printf("   refusal %u at %u\n", refusal_of(answer), value_of(answer));
        else
            printf("   %s\n", value_of(answer) ? "true" : "false");
    }
    return greatest;
}

static unsigned long library_allocations(struct condition *list)
{
    unsigned long before = allocations;
    for (struct condition *c = list; c->name; c++)
        library_expand(c, 1), library_plan(c, 1), library_judge(c, 1), library_run(c, 1), library_sweep(c, 1);
    return allocations - before;
}

static void print_aim(int met, const char *aim)
{
    printf("%-9s%s", met ? "met" : "NOT MET", aim);
}

/* How many conditions, typical and worst, a side judges within so many times GnuCOBOL's time. */
static void print_aim_within(int side, double times, const char *aim)
{
    int count[2] = {0}, within[2] = {0};
    for (int i = 0; measured[i].name; i++) {
        int worst = measured[i].name[0] == 'w';
        count[worst]++;
        within[worst] += best[i][side] <= times * best[i][COBOL];
    }
    print_aim(within[0] == count[0] && within[1] == count[1], aim);
    printf("%d of %d typical, %d of %d worst\n", within[0], count[0], within[1], count[1]);
}

static void print_aims(long stack_bytes, unsigned long heap)
{
    double longest_plan = 0;
    for (int i = 0; measured[i].name; i++)
        if (best[i][PLANNED] > longest_plan)
            longest_plan = best[i][PLANNED];
    printf("\nAims\n\n");
    print_aim_within(RUN, 1, "run, with all its checks, no slower than GnuCOBOL's IF: ");
    print_aim_within(JUDGE, 10, "judge within 10 times GnuCOBOL's IF: ");
    print_aim(longest_plan < 50e3, "256 tokens planned in under 50 microseconds: ");
    printf("at most %.1f\n", longest_plan / 1e3);
    print_aim(heap == 0, "no heap: ");
    printf("%lu of this process's %lu allocations\n", heap, allocations);
    print_aim(stack_bytes < 16384, "under 16 KiB of stack: ");
    printf("at most %ld bytes\n", stack_bytes);
}

int main(void)
{
    cob_init(0, NULL);
    make_conditions();
    for (struct condition *c = measured; c->name; c++) {
        demand(write_plan(c), c);
        check_beside_cobol(c);
    }
    for (struct condition *c = deep; c->name; c++) {
        demand(write_plan(c) && all_judge_alike(c), c);
    }
    unsigned long heap = library_allocations(measured) + library_allocations(deep);
    measure_times();
    print_times();
    print_aims(print_stack(), heap);
    return 0;
}
