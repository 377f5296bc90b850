/* Answers stored cases of condition texts by the library, from standard input to standard output, a line for each: the form of
 * `second answers-spelling` (tests/second/README.md). */
#include "../../include/oboecurlew.h"
#include "../stored.h"
#include <string.h>

/* What a condition text says. */
typedef struct {
    uint32_t tokens[MOST], literals[MOST];
    uint8_t bytes[MOST];
    uint32_t token_room, literal_room, byte_room;
} condition;

static uint8_t description[MOST], words[MOST], bytes[MOST], printed[MOST];
static uint32_t literals[MOST], tokens[MOST];
static uint32_t description_size, words_size;
static condition said, first, again;

static uint32_t numbers(uint32_t *list)
{
    uint32_t count = number(2);
    for (uint32_t i = 0; i < count; i++)
        list[i] = number(4);
    return count;
}

static uint32_t read_into(condition *c, const uint8_t *from, uint32_t size, oboecurlew_answer *answer)
{
    fill(c->tokens, c->token_room);
    fill(c->literals, c->literal_room);
    fill_bytes(c->bytes, c->byte_room);
    return oboecurlew_read(description, description_size, from, size, c->tokens, c->token_room, c->literals, c->literal_room, c->bytes,
                           c->byte_room, answer);
}

static void answer_read(void)
{
    oboecurlew_answer answer;
    said.token_room = number(2);
    said.literal_room = number(2);
    said.byte_room = number(2);
    uint32_t refusal = read_into(&said, words, words_size, &answer);
    printf("R %u %u %u %u %u %u %u %u", refusal, answer.value, answer.written[0], checksum(said.tokens, said.token_room),
           answer.written[1], checksum(said.literals, said.literal_room), answer.written[2],
           checksum_of_bytes(said.bytes, said.byte_room));
}

static void answer_print(void)
{
    oboecurlew_answer answer;
    uint32_t literal_numbers = numbers(literals), byte_count = text(bytes), token_count = numbers(tokens), room = number(2);
    fill_bytes(printed, room);
    uint32_t refusal = oboecurlew_print(description, description_size, literals, literal_numbers, bytes, byte_count, tokens, token_count,
                                        printed, room, &answer);
    printf(" P %u %u %u %u", refusal, answer.value, answer.written[0], checksum_of_bytes(printed, room));
}

/* Whether what was read, printed in 2,048 bytes or fewer and read again, is the same. */
static int comes_back(void)
{
    oboecurlew_answer read, print, second;
    first.token_room = first.literal_room = first.byte_room = MOST;
    again.token_room = again.literal_room = again.byte_room = MOST;
    if (read_into(&first, words, words_size, &read) != OBOECURLEW_OK)
        return 1;
    if (oboecurlew_print(description, description_size, first.literals, read.written[1], first.bytes, read.written[2], first.tokens,
                         read.written[0], printed, MOST, &print) != OBOECURLEW_OK)
        return 0;
    if (print.written[0] > 2048)
        return 1;
    return read_into(&again, printed, print.written[0], &second) == OBOECURLEW_OK && memcmp(&read, &second, sizeof read) == 0 &&
           memcmp(&first, &again, sizeof first) == 0;
}

static void answer_case(void)
{
    description_size = text(description);
    words_size = text(words);
    answer_read();
    answer_print();
    printf(" T %d\n", comes_back());
}

int main(void)
{
    for (uint32_t cases = number(4); cases > 0; cases--)
        answer_case();
    return 0;
}
