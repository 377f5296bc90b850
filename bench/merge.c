/* The merge of two copies of a record beside plain copies and comparisons of the same bytes; what is merged is compared first. */
#include "../include/oboecurlew.h"
#include <stdio.h>
#include <string.h>
#include <time.h>

enum { LONGEST = 65535, ITEMS = 64, ROUNDS = 100 };

static uint32_t items[5 * ITEMS], contested[ITEMS];
static uint8_t old[LONGEST], first[LONGEST], second[LONGEST], merged[LONGEST], wanted[LONGEST], none[1];
static uint32_t no_numbers[1];
/* One row: item 0 equal to itself, true. */
static const uint32_t plan[5] = {OBOECURLEW_ITEM(0), OBOECURLEW_EQUAL, OBOECURLEW_ITEM(0), OBOECURLEW_TRUE, OBOECURLEW_FALSE};
static oboecurlew_answer said;

static double now(void)
{
    struct timespec t;
    clock_gettime(CLOCK_MONOTONIC, &t);
    return (double)t.tv_sec * 1e9 + (double)t.tv_nsec;
}

/* Elementary items of at most 256 bytes, spread over a record of this size. */
static size_t lay(size_t size)
{
    size_t each = size / ITEMS, most = each < 256 ? each : 256;
    for (uint32_t v = 0; v < ITEMS; v++) {
        uint32_t row[5] = {OBOECURLEW_ALPHANUMERIC, v * (uint32_t)each, (uint32_t)most, 0, 0};
        memcpy(items + 5 * v, row, sizeof row);
    }
    return each;
}

static uint32_t merge(size_t size)
{
    return oboecurlew_merge(items, 5 * ITEMS, no_numbers, 0, none, 0, no_numbers, 0, plan, 5, old, size, first, size, second, size, 0,
                            merged, size, contested, ITEMS, &said);
}

static volatile int kept;

static void plain(size_t size)
{
    kept = memcmp(first, old, size) + memcmp(second, old, size);
    memcpy(merged, old, size);
}

static double least(size_t size, int library)
{
    double best = 1e18;
    int times = size > 10000 ? 20 : 500;
    for (int r = 0; r < ROUNDS; r++) {
        double start = now();
        for (int k = 0; k < times; k++) {
            if (library)
                merge(size);
            else
                plain(size);
        }
        double each = (now() - start) / times;
        best = each < best ? each : best;
    }
    return best;
}

int main(void)
{
    static const size_t sizes[] = {128, 2048, 16384, LONGEST};
    static const char *const changes[] = {"nothing changed", "every item changed by one side", "every item changed apart"};
    printf("\nNanoseconds per merge of 64 items, the least of %d rounds; beside it two memcmp and one memcpy of the record\n\n", ROUNDS);
    for (size_t s = 0; s < sizeof sizes / sizeof *sizes; s++)
        for (int c = 0; c < 3; c++) {
            size_t size = sizes[s], each = lay(size);
            memset(old, 'A', size);
            memcpy(first, old, size);
            memcpy(second, old, size);
            memcpy(wanted, old, size);
            for (size_t v = 0; v < ITEMS && c > 0; v++) {
                first[v * each] = 'B';
                wanted[v * each] = 'B';
                if (c == 2)
                    second[v * each] = 'C';
            }
            if (merge(size) != 0 || memcmp(merged, wanted, size) != 0 || said.written[1] != 0) {
                printf("not merged as it should be\n");
                return 1;
            }
            printf("%6zu bytes, %-32s %10.0f %10.0f\n", size, changes[c], least(size, 1), least(size, 0));
        }
}
