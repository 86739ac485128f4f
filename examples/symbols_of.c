/* All symbols of each name of a small rule file, through the C interface: what an editor offers when it completes a name. */
#include "rule_file.h"

#include <inttypes.h>
#include <stdio.h>

static const char text[] = "pred shares(who: Person); "
                           "model Office { pred shares(who: Person); rule { if shares(who); then shares(who); } }";
static const char *const names[] = {"shares", "who", "Person", "Office"};

static const struct row file[] = {
    {24, "Person", 0, 1, {2}},                                   /* 0: the type Person */
    {23, "Person", 0, 2, {0, 0}},
    {10, "who: Person", 0, 2, {2, 1}},                           /* 2: the argument who */
    {11, "who: Person", 0, 2, {1, 2}},
    {3, "pred shares(who: Person);", 0, 2, {0, 3}},              /* 4: the predicate shares */
    {1, "pred shares(who: Person);", 0, 2, {1, 4}},
    {24, "Person", 1, 1, {2}},                                   /* 6: the type Person */
    {23, "Person", 1, 2, {0, 6}},
    {10, "who: Person", 1, 2, {2, 7}},                           /* 8: the argument who of the model's predicate */
    {11, "who: Person", 1, 2, {1, 8}},
    {3, "pred shares(who: Person);", 1, 2, {0, 9}},              /* 10: the model's predicate shares */
    {1, "pred shares(who: Person);", 1, 2, {1, 10}},
    {27, "shares", 2, 1, {0}},                                   /* 12: shares in the rule */
    {26, "shares", 2, 2, {0, 12}},
    {13, "who", 2, 1, {1}},                                      /* 14: the variable who */
    {12, "who", 2, 2, {0, 14}},
    {22, "who", 2, 2, {1, 15}},
    {31, "shares(who)", 0, 2, {13, 16}},
    {28, "shares(who)", 0, 2, {2, 17}},
    {37, "if shares(who);", 0, 1, {18}},
    {36, "if shares(who);", 0, 2, {0, 19}},                      /* 20 */
    {27, "shares", 3, 1, {0}},                                   /* 21: shares in the rule */
    {26, "shares", 3, 2, {0, 21}},
    {13, "who", 3, 1, {1}},                                      /* 23: who */
    {12, "who", 3, 2, {0, 23}},
    {22, "who", 3, 2, {1, 24}},
    {31, "shares(who)", 1, 2, {22, 25}},
    {29, "shares(who)", 1, 2, {2, 26}},
    {38, "then shares(who);", 0, 1, {27}},
    {36, "then shares(who);", 0, 2, {1, 28}},                    /* 29: the rule's last statement */
    {6, "rule { if shares(who); then shares(who); }", 0, 4, {0, 2, 20, 29}},
    {1, "rule { if shares(who); then shares(who); }", 0, 2, {4, 30}},
    {8, "model Office {", 0, 4, {3, 2, 11, 31}},                 /* 32: the model Office */
    {1, "model Office {", 0, 2, {6, 32}},
    {0, text, 0, 3, {2, 5, 33}},                                 /* 34: the module */
};

enum { NODES = sizeof file / sizeof *file, NAMES = sizeof names / sizeof *names, RULE_END = 29 };

static uint32_t table[EQLOG_TABLE_WORDS(NODES)];
static uint32_t index_words[EQLOG_INDEX_WORDS(NODES, NAMES)];

/* All symbols of a name, as they were inserted: the part of the text that each stands for, and its scope. */
static void print_symbols(size_t name) {
    uint32_t row = index_words[EQLOG_INDEX_FIRST(name)];
    printf("%s:%s\n", names[name], row == EQLOG_NONE ? " no symbol" : "");
    for (; row != EQLOG_NONE; row = index_words[EQLOG_INDEX_NEXT(NAMES, row)]) {
        const struct row *node = &file[table[EQLOG_SYMBOL_NODE(NODES, row)]];
        printf("  %s, at %zu, in scope %" PRIu32 "\n", node->part, begin(text, node), table[EQLOG_SYMBOL_SCOPE(NODES, row)]);
    }
}

int main(void) {
    put_image(text, file, NODES, names, NAMES);
    if (EQLOG_TAG(eqlog_resolve(image, image_len, table, EQLOG_TABLE_WORDS(NODES))) != EQLOG_RESULT) {
        return 1;
    }
    uint64_t made = eqlog_index(image, image_len, table, EQLOG_TABLE_WORDS(NODES), index_words, EQLOG_INDEX_WORDS(NODES, NAMES));
    if (EQLOG_TAG(made) != EQLOG_RESULT) {
        return 1;
    }
    printf("%u symbols\n", EQLOG_C(made));
    for (size_t i = 0; i < NAMES; i++) {
        print_symbols(i);
    }
    /* and which of them a name means at the end of the rule */
    uint32_t scope = table[EQLOG_EXIT(NODES, RULE_END)];
    for (size_t i = 0; i < NAMES; i++) {
        uint64_t answer = eqlog_lookup_indexed(image, image_len, table, EQLOG_TABLE_WORDS(NODES), index_words,
                                               EQLOG_INDEX_WORDS(NODES, NAMES), scope, (const uint8_t *)names[i], strlen(names[i]));
        if (EQLOG_TAG(answer) == EQLOG_REFUSED) {
            return 1;
        }
        if (EQLOG_TAG(answer) == EQLOG_RESULT) {
            printf("in the rule, %s is the one at %zu\n", names[i], begin(text, &file[EQLOG_C(answer)]));
        }
    }
    return 0;
}
