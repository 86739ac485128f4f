/* A variable of a small rule file renamed through the C interface: what an editor does at the caret in one of its places. */
#include "rule_file.h"

#include <inttypes.h>
#include <stdio.h>

static const char text[] = "rule { if owns(x, y); then shares(x, y); }";
static const char *const names[] = {"owns", "x", "y", "shares", "who"};

static const struct row file[] = {
    {27, "owns", 0, 1, {0}},                                     /* 0: the predicate owns */
    {26, "owns", 0, 2, {0, 0}},
    {13, "x", 0, 1, {1}},                                        /* 2: x */
    {12, "x", 0, 2, {0, 2}},
    {13, "y", 0, 1, {2}},                                        /* 4: y */
    {12, "y", 0, 2, {0, 4}},
    {22, "x, y", 0, 3, {2, 3, 5}},                               /* 6: the terms */
    {31, "owns(x, y)", 0, 2, {1, 6}},
    {28, "owns(x, y)", 0, 2, {2, 7}},
    {37, "if owns(x, y);", 0, 1, {8}},
    {36, "if owns(x, y);", 0, 2, {0, 9}},
    {27, "shares", 0, 1, {3}},                                   /* 11: the predicate shares */
    {26, "shares", 0, 2, {0, 11}},
    {13, "x", 1, 1, {1}},                                        /* 13: x */
    {12, "x", 1, 2, {0, 13}},
    {13, "y", 1, 1, {2}},                                        /* 15: y */
    {12, "y", 1, 2, {0, 15}},
    {22, "x, y", 1, 3, {2, 14, 16}},                             /* 17: the terms */
    {31, "shares(x, y)", 0, 2, {12, 17}},
    {29, "shares(x, y)", 0, 2, {2, 18}},
    {38, "then shares(x, y);", 0, 1, {19}},
    {36, "then shares(x, y);", 0, 2, {1, 20}},
    {6, text, 0, 4, {0, 2, 10, 21}},                             /* 22: the rule, without a name */
    {1, text, 0, 2, {4, 22}},
    {0, text, 0, 2, {1, 23}},                                    /* 24: the module */
};

enum { NODES = sizeof file / sizeof *file, NAMES = sizeof names / sizeof *names, CARET = 14, Y = 2, WHO = 4 };

static uint32_t table[EQLOG_TABLE_WORDS(NODES)];
static uint32_t rows[EQLOG_ROWS_WORDS(NODES)];
static uint8_t out[EQLOG_MAX_IMAGE_BYTES];

static uint32_t word(const uint8_t *at) {
    return at[0] | (uint32_t)at[1] << 8 | (uint32_t)at[2] << 16 | (uint32_t)at[3] << 24;
}

/* A word of a node's row after its location, in the image or in the renamed one. */
static uint32_t field(const uint8_t *bytes, uint32_t node, uint32_t i) {
    uint32_t start = word(bytes + 16 + 4 * (NODES + node));
    return word(bytes + 16 + 8 * NODES + 4 * (start + 2 + i));
}

/* The lit places, those of the binding: the node of each, and the name of the IdentTerm under it. */
static void print_places(const char *what, const uint8_t *bytes, uint32_t binding) {
    printf("%s\n", what);
    for (uint32_t i = 0; i < rows[0]; i++) {
        uint32_t node = rows[EQLOG_ROW_LEFT(NODES, i)];
        if (rows[EQLOG_ROW_RIGHT(NODES, i)] == binding) {
            printf("  node %" PRIu32 ": %s\n", node, names[field(bytes, field(bytes, node, 1), 0)]);
        }
    }
}

static uint64_t rename_to(uint32_t binding, uint32_t name) {
    return eqlog_rename(image, image_len, table, EQLOG_TABLE_WORDS(NODES), rows, EQLOG_ROWS_WORDS(NODES), binding, name, out, sizeof out);
}

int main(void) {
    put_image(text, file, NODES, names, NAMES);
    uint64_t answer = eqlog_occurrences(image, image_len, table, EQLOG_TABLE_WORDS(NODES), rows, EQLOG_ROWS_WORDS(NODES));
    if (EQLOG_TAG(answer) != EQLOG_RESULT) {
        return 1;
    }
    uint32_t binding = EQLOG_NONE;
    for (uint32_t i = 0; i < EQLOG_C(answer); i++) {
        if (rows[EQLOG_ROW_LEFT(NODES, i)] == CARET) {
            binding = rows[EQLOG_ROW_RIGHT(NODES, i)];
        }
    }
    print_places("as it is:", image, binding);
    answer = rename_to(binding, WHO);
    if (EQLOG_TAG(answer) != EQLOG_RESULT || EQLOG_C(answer) != image_len) {
        return 1;
    }
    print_places("renamed to who:", out, binding);
    /* y is another variable of the rule, so the places of both would be one's */
    answer = rename_to(binding, Y);
    if (EQLOG_TAG(answer) != EQLOG_REFUSED) {
        return 1;
    }
    printf("renamed to y: refused %u\n", EQLOG_C(answer));
    return 0;
}
