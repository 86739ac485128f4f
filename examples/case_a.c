/* The report of case A, one unnamed rule `if x = x`, through the C interface. */
#include "../include/eqlog_scopes.h"

#include <inttypes.h>
#include <stdio.h>
#include <string.h>

enum { NODES = 11, OPERANDS = 42, NAMES = 1, NAME_BYTES = 1 };
#define IMAGE_BYTES (16 + 8 * NODES + 4 * OPERANDS + 4 * NAMES + NAME_BYTES)

static const uint32_t words[4 + 2 * NODES + OPERANDS + NAMES] = {
    NODES, OPERANDS, NAMES, NAME_BYTES,
    13, 12, 13, 12, 30, 28, 37, 36, 6, 1, 0,       /* kinds */
    0, 3, 7, 10, 14, 18, 22, 25, 29, 34, 38,       /* starts */
    0, 0, 0,                                       /* IdentTerm x */
    0, 0, 0, 0,                                    /* Term, Ident */
    0, 0, 0,                                       /* IdentTerm x */
    0, 0, 0, 2,                                    /* Term, Ident */
    0, 0, 1, 3,                                    /* EqualAtom */
    0, 0, 0, 4,                                    /* IfAtom, Equal */
    0, 0, 5,                                       /* IfStmt */
    0, 0, 0, 6,                                    /* Stmt, If */
    0, 0, 0, 1, 7,                                 /* RuleDecl, no name, one statement */
    0, 0, 4, 8,                                    /* Decl, Rule */
    0, 0, 1, 9,                                    /* Module, one declaration */
    1                                              /* the name's end */
};

static uint8_t image[IMAGE_BYTES];
static uint32_t table[EQLOG_TABLE_WORDS(NODES)];
static uint32_t rows[EQLOG_ROWS_WORDS(NODES)];

static void print_rows(const char *what, uint64_t answer) {
    for (unsigned i = 0; i < EQLOG_C(answer); i++) {
        printf("%s %" PRIu32 " %" PRIu32 "\n", what, rows[EQLOG_ROW_LEFT(NODES, i)], rows[EQLOG_ROW_RIGHT(NODES, i)]);
    }
}

int main(void) {
    for (size_t i = 0; i < sizeof words / sizeof *words; i++) {
        for (size_t b = 0; b < 4; b++) {
            image[4 * i + b] = (uint8_t)(words[i] >> 8 * b);
        }
    }
    image[sizeof image - 1] = 'x';

    uint64_t answer = eqlog_resolve(image, sizeof image, table, EQLOG_TABLE_WORDS(NODES));
    if (EQLOG_TAG(answer) == EQLOG_REFUSED) {
        printf("refused %u\n", EQLOG_C(answer));
        return 1;
    }
    if (EQLOG_TAG(answer) == EQLOG_TWICE) {
        printf("twice %u %u %u\n", EQLOG_A(answer), EQLOG_B(answer), EQLOG_C(answer));
        return 1;
    }
    printf("resolved %u %u\n", EQLOG_B(answer), EQLOG_C(answer));
    print_rows("error", eqlog_errors(image, sizeof image, table, EQLOG_TABLE_WORDS(NODES), rows, EQLOG_ROWS_WORDS(NODES), EQLOG_PLAIN));
    print_rows("var", eqlog_occurrences(image, sizeof image, table, EQLOG_TABLE_WORDS(NODES), rows, EQLOG_ROWS_WORDS(NODES)));
    answer = eqlog_once(image, sizeof image, table, EQLOG_TABLE_WORDS(NODES));
    if (EQLOG_TAG(answer) == EQLOG_OTHER) {
        printf("end once %u %u\n", EQLOG_B(answer), EQLOG_C(answer));
    } else {
        printf("end ok\n");
    }

    /* the same name, by number and by bytes; and what is refused */
    uint64_t place = eqlog_name(image, sizeof image, 0);
    const uint8_t *name = image + EQLOG_NAME_START(place);
    answer = eqlog_lookup(image, sizeof image, table, EQLOG_TABLE_WORDS(NODES), 1, name, EQLOG_NAME_LEN(place));
    if (EQLOG_TAG(answer) != EQLOG_RESULT || EQLOG_B(answer) != EQLOG_VAR || EQLOG_C(answer) != 0) {
        return 1;
    }
    if (EQLOG_NAME_LEN(place) != 1 || memcmp(name, "x", 1) != 0 || eqlog_name(image, sizeof image, 1) != 0) {
        return 1;
    }
    if (eqlog_resolve(NULL, 0, NULL, 0) != EQLOG_REFUSED_HEADER) {
        return 1;
    }
    return 0;
}
