/* The error rows of a small rule file through the C interface, in the usual mode, which is strict: in the sequence of the check,
 * and by place. */
#include "rule_file.h"

#include <inttypes.h>
#include <stdio.h>

static const char text[] = "pred shares(who: Person, vault: Vault, who: Person); rule { then shares(x, y, z); }";
static const char *const names[] = {"shares", "who", "vault", "Person", "Vault", "x", "y", "z"};

static const struct row file[] = {
    {24, "Person", 0, 1, {3}},                                          /* 0: the type Person */
    {23, "Person", 0, 2, {0, 0}},                                       /* 1 */
    {10, "who: Person", 0, 2, {2, 1}},                                  /* 2: the argument who */
    {24, "Vault", 0, 1, {4}},                                           /* 3 */
    {23, "Vault", 0, 2, {0, 3}},                                        /* 4 */
    {10, "vault: Vault", 0, 2, {3, 4}},                                 /* 5: the argument vault */
    {24, "Person", 1, 1, {3}},                                          /* 6 */
    {23, "Person", 1, 2, {0, 6}},                                       /* 7 */
    {10, "who: Person", 1, 2, {2, 7}},                                  /* 8: the argument who, again */
    {11, "who: Person, vault: Vault, who: Person", 0, 4, {3, 2, 5, 8}}, /* 9 */
    {3, "pred shares(who: Person, vault: Vault, who: Person);", 0, 2, {0, 9}},
    {1, "pred shares(who: Person, vault: Vault, who: Person);", 0, 2, {1, 10}},
    {27, "shares", 1, 1, {0}},                                          /* 12: the predicate */
    {26, "shares", 1, 2, {0, 12}},
    {13, "x", 0, 1, {5}},                                               /* 14: x */
    {12, "x", 0, 2, {0, 14}},
    {13, "y", 0, 1, {6}},                                               /* 16: y */
    {12, "y", 0, 2, {0, 16}},
    {13, "z", 0, 1, {7}},                                               /* 18: z */
    {12, "z", 0, 2, {0, 18}},
    {22, "x, y, z", 0, 4, {3, 15, 17, 19}},                             /* 20: the terms */
    {31, "shares(x, y, z)", 0, 2, {13, 20}},
    {29, "shares(x, y, z)", 0, 2, {2, 21}},
    {38, "then shares(x, y, z);", 0, 1, {22}},
    {36, "then shares(x, y, z);", 0, 2, {1, 23}},
    {6, "rule { then shares(x, y, z); }", 0, 3, {0, 1, 24}},            /* 25: the rule, without a name */
    {1, "rule { then shares(x, y, z); }", 0, 2, {4, 25}},
    {0, text, 0, 3, {2, 11, 26}},                                       /* 27: the module */
};

enum { NODES = sizeof file / sizeof *file, NAMES = sizeof names / sizeof *names };

static uint32_t table[EQLOG_TABLE_WORDS(NODES)];
static uint32_t rows[EQLOG_ROWS_WORDS(NODES)];

static int print_rows(const char *what, uint64_t answer) {
    if (EQLOG_TAG(answer) != EQLOG_RESULT) {
        return 1;
    }
    printf("%s\n", what);
    for (unsigned i = 0; i < EQLOG_C(answer); i++) {
        const struct row *row = &file[rows[EQLOG_ROW_RIGHT(NODES, i)]];
        size_t from = begin(text, row);
        printf("  error %" PRIu32 " at %zu to %zu: %s\n", rows[EQLOG_ROW_LEFT(NODES, i)], from, from + strlen(row->part), row->part);
    }
    return 0;
}

int main(void) {
    put_image(text, file, NODES, names, NAMES);
    return print_rows("errors:", eqlog_errors(image, image_len, table, EQLOG_TABLE_WORDS(NODES), rows, EQLOG_ROWS_WORDS(NODES), EQLOG_DEFAULT))
        || print_rows("sorted:", eqlog_sorted(image, image_len, table, EQLOG_TABLE_WORDS(NODES), rows, EQLOG_ROWS_WORDS(NODES), EQLOG_DEFAULT));
}
