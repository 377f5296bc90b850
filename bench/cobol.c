/* Writes the COBOL side: for each condition a program that judges it so many times on a record, and one that goes so many times
 * over a file of records, a table, which 0 times give it. They lie in WORKING-STORAGE, which GnuCOBOL reaches faster than LINKAGE. */
#define _GNU_SOURCE
#include "conditions.h"
#include <stdio.h>
#include <stdlib.h>
#include <string.h>

static void write_item(const struct item *i)
{
    if (i->kind == 0) {
        printf("   05 %s.\n      10 FILLER PIC X(%u).\n", i->name, i->size);
        return;
    }
    printf("   05 %s PIC ", i->name);
    if (i->kind <= 2) {
        printf("%c(%u).\n", i->kind == 1 ? 'A' : 'X', i->size);
        return;
    }
    uint32_t whole = digits_of(i->kind, i->size) - i->scale;
    if (i->kind >= 4)
        printf("S");
    if (whole)
        printf("9(%u)", whole);
    if (i->scale)
        printf("V9(%u)", i->scale);
    printf("%s.\n", i->kind == 5 ? " SIGN LEADING SEPARATE"
                    : i->kind == 6 ? " SIGN TRAILING SEPARATE"
                    : i->kind == 8 ? " COMP-3"
                                   : "");
}

static void write_name(const struct item *i)
{
    if (i->named)
        printf("      88 %s VALUES %s.\n", i->named, i->values);
}

/* Switches, and where data begin. */
static void write_head(const char *name, int number)
{
    printf("IDENTIFICATION DIVISION.\nPROGRAM-ID. %s%d.\n"
           "ENVIRONMENT DIVISION.\nCONFIGURATION SECTION.\nSPECIAL-NAMES.\n", name, number);
    for (int s = 0; s < 8; s++)
        printf("    SWITCH-%d IS SW%d ON STATUS IS S%d-ON%s\n", s, s, s, s == 7 ? "." : "");
    printf("DATA DIVISION.\nWORKING-STORAGE SECTION.\n");
}

static void write_items(const struct condition *c)
{
    for (const struct item *i = c->given; i->name; i++) {
        write_item(i);
        write_name(i);
    }
}

static int is_given(const struct condition *c, const char *word)
{
    for (const struct item *i = c->given; i->name; i++)
        if (!strcmp(word, i->name) || (i->named && !strcmp(word, i->named)))
            return 1;
    return 0;
}

/* The condition's words, behind each name this; a line has at most 255 characters, a word at most 30. */
static void write_text(const struct condition *c, const char *behind)
{
    char *rest = strdup(c->text);
    int column = 0;
    for (char *word = strtok(rest, " "); word; word = strtok(NULL, " ")) {
        column += printf(" %s%s", word, is_given(c, word) ? behind : "");
        if (column > 100) {
            printf("\n           ");
            column = 0;
        }
    }
    free(rest);
}

static void write_program(int number, const struct condition *c)
{
    write_head("CONDITION", number);
    printf("01 THE-RECORD.\n");
    write_items(c);
    printf("LINKAGE SECTION.\n01 HOW-OFTEN BINARY-DOUBLE UNSIGNED.\n01 TRUTH PIC X.\n01 LENT-RECORD PIC X(%zu).\n"
           "PROCEDURE DIVISION USING HOW-OFTEN TRUTH LENT-RECORD.\n"
           "    MOVE LENT-RECORD TO THE-RECORD\n    PERFORM HOW-OFTEN TIMES\n        IF", c->record_size);
    write_text(c, "");
    printf("\n            MOVE \"1\" TO TRUTH\n        ELSE\n            MOVE \"0\" TO TRUTH\n        END-IF\n"
           "    END-PERFORM\n    GOBACK.\nEND PROGRAM CONDITION%d.\n", number);
}

static void write_laid_program(int number, const struct condition *c)
{
    write_head("LAID", number);
    printf("01 THE-FILE.\n  02 THE-RECORD OCCURS %zu TIMES.\n", laid(c));
    write_items(c);
    printf("01 THE-TRUTHS.\n  02 TRUTH PIC X OCCURS %zu TIMES.\n01 I BINARY-LONG UNSIGNED.\n", laid(c));
    printf("LINKAGE SECTION.\n01 HOW-OFTEN BINARY-DOUBLE UNSIGNED.\n01 LENT-TRUTHS PIC X(%zu).\n01 LENT-FILE PIC X(%zu).\n"
           "PROCEDURE DIVISION USING HOW-OFTEN LENT-TRUTHS LENT-FILE.\n"
           "    IF HOW-OFTEN = 0\n        MOVE LENT-FILE TO THE-FILE\n    END-IF\n    PERFORM HOW-OFTEN TIMES\n"
           "    PERFORM VARYING I FROM 1 BY 1 UNTIL I > %zu\n        IF", laid(c), laid(c) * c->record_size, laid(c));
    write_text(c, " (I)");
    printf("\n            MOVE \"1\" TO TRUTH (I)\n        ELSE\n            MOVE \"0\" TO TRUTH (I)\n        END-IF\n"
           "    END-PERFORM\n    END-PERFORM\n    MOVE THE-TRUTHS TO LENT-TRUTHS\n    GOBACK.\nEND PROGRAM LAID%d.\n", number);
}

int main(void)
{
    make_conditions();
    for (int i = 0; measured[i].name; i++) {
        write_program(i, &measured[i]);
        write_laid_program(i, &measured[i]);
    }
    return 0;
}
