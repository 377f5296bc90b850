/* Answers stored cases of record descriptions by the library, from standard input to standard output, a line for each: the form of
 * `second answers-descriptions` (tests/second/README.md). */
#include "../../include/oboecurlew.h"
#include "../stored.h"

enum { LISTS = 5 }; /* outputs of numbers: rows, places, names, name places, literals; the bytes come behind them */

static uint8_t description[MOST], bytes[MOST];
static uint32_t lists[LISTS][MOST];

static void answer_case(void)
{
    oboecurlew_answer answer;
    uint32_t size = text(description), room[LISTS], byte_room;
    for (int i = 0; i < LISTS; i++) {
        room[i] = number(2);
        fill(lists[i], room[i]);
    }
    byte_room = number(2);
    fill_bytes(bytes, byte_room);
    uint32_t refusal = oboecurlew_describe(description, size, lists[0], room[0], lists[1], room[1], lists[2], room[2], lists[3], room[3],
                                           lists[4], room[4], bytes, byte_room, &answer);
    printf("%u %u", refusal, answer.value);
    for (int i = 0; i < LISTS; i++)
        printf(" %u %u", answer.written[i], checksum(lists[i], room[i]));
    printf(" %u %u\n", answer.written[LISTS], checksum_of_bytes(bytes, byte_room));
}

int main(void)
{
    for (uint32_t cases = number(4); cases > 0; cases--)
        answer_case();
    return 0;
}
