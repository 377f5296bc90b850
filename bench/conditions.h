/* The conditions that are measured. Each is written once, as COBOL text over named items: its tokens and tables for the library and
 * its COBOL program (cobol.c) are both made from that. */
#include <stddef.h>
#include <stdint.h>

struct item {
    const char *name;
    uint32_t kind, size, scale; /* as in a row of the item table; of a packed item, kind 8, the digits in place of the size */
    const char *content;        /* repeated up to the size; of a packed item its digits, after a minus or none */
    const char *named, *values; /* its condition-name, if it has one: values and ranges, as 1 5 THRU 9 */
};

size_t bytes_of(const struct item *i);
uint32_t digits_of(uint32_t kind, uint32_t size);

struct condition {
    const char *name;
    const struct item *given; /* up to one without a name; they lie in the record one after the other */
    const char *text;         /* words apart by a space; text literals in ' and without spaces; switches as S0-ON */

    /* what the library takes */
    uint32_t items[320], literals[320], names[1152], tokens[512];
    size_t item_numbers, literal_numbers, name_numbers, token_count;
    uint8_t bytes[2048], *record;
    size_t byte_count, record_size;

    /* for whoever calls the library */
    uint32_t plan[640];
    size_t plan_numbers;
};

enum { CONDITIONS = 32 };
extern struct condition measured[CONDITIONS]; /* beside COBOL; up to one without a name */
extern struct condition deep[CONDITIONS];     /* what could need much stack, refused conditions too */

void make_conditions(void);

/* Other valid contents, such that equal ones come up too. A sign in the last byte stays plus. */
void change_record(const struct condition *c, uint8_t *record);
/* The record as GnuCOBOL takes it: the sign of a packed item is C or D there, and 3 or 4 here (document 001). */
void as_cobol(const struct condition *c, const uint8_t *record, uint8_t *lent);
/* Records in its file: LAID of them, or as many as 512 KB hold. */
enum { LAID = 1000 };
size_t laid(const struct condition *c);

/* A condition as arguments of the library's calls. */
#define TABLES(c) \
    c->items, c->item_numbers, c->literals, c->literal_numbers, c->bytes, c->byte_count, c->names, c->name_numbers
#define TOKENS(c) c->tokens, c->token_count
#define PLAN(c) c->plan, c->plan_numbers
