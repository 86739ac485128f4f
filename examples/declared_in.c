/* Where the names of a small rule file are declared, through the C interface: what an editor says at the end of its rule. */
#include "rule_file.h"

#include <stdio.h>

static const char text[] = "model Office { pred clerk(Person); rule { if clerk(x); then staff(x); } } pred staff(Person);";
static const char *const names[] = {"Office", "clerk", "Person", "x", "staff"};

enum { RULE_END = 23, MODEL_DECL = 8 };

static const struct row file[] = {
    {24, "Person", 0, 1, {2}},                                   /* 0: the type Person */
    {23, "Person", 0, 2, {0, 0}},                                /* 1 */
    {10, "Person", 0, 2, {0, 1}},                                /* 2: an argument without a name */
    {11, "Person", 0, 2, {1, 2}},                                /* 3 */
    {3, "pred clerk(Person);", 0, 2, {1, 3}},                    /* 4: the predicate clerk */
    {1, "pred clerk(Person);", 0, 2, {1, 4}},
    {27, "clerk", 1, 1, {1}},                                    /* 6: clerk in the rule */
    {26, "clerk", 1, 2, {0, 6}},
    {13, "x", 0, 1, {3}},                                        /* 8: x */
    {12, "x", 0, 2, {0, 8}},
    {22, "x", 0, 2, {1, 9}},
    {31, "clerk(x)", 0, 2, {7, 10}},
    {28, "clerk(x)", 0, 2, {2, 11}},
    {37, "if clerk(x);", 0, 1, {12}},
    {36, "if clerk(x);", 0, 2, {0, 13}},
    {27, "staff", 0, 1, {4}},                                    /* 15: staff in the rule */
    {26, "staff", 0, 2, {0, 15}},
    {13, "x", 1, 1, {3}},                                        /* 17: x */
    {12, "x", 1, 2, {0, 17}},
    {22, "x", 1, 2, {1, 18}},
    {31, "staff(x)", 0, 2, {16, 19}},
    {29, "staff(x)", 0, 2, {2, 20}},
    {38, "then staff(x);", 0, 1, {21}},
    {36, "then staff(x);", 0, 2, {1, 22}},                       /* 23: the rule's last statement */
    {6, "rule { if clerk(x); then staff(x); }", 0, 4, {0, 2, 14, 23}},
    {1, "rule { if clerk(x); then staff(x); }", 0, 2, {4, 24}},
    {8, "model Office {", 0, 4, {0, 2, 5, 25}},                  /* 26: the model Office */
    {1, "model Office {", 0, 2, {6, 26}},
    {24, "Person", 1, 1, {2}},                                   /* 28: the type Person */
    {23, "Person", 1, 2, {0, 28}},
    {10, "Person", 1, 2, {0, 29}},
    {11, "Person", 1, 2, {1, 30}},
    {3, "pred staff(Person);", 0, 2, {4, 31}},                   /* 32: the predicate staff */
    {1, "pred staff(Person);", 0, 2, {1, 32}},
    {0, text, 0, 3, {2, 27, 33}},                                /* 34: the module */
};

enum { NODES = sizeof file / sizeof *file, NAMES = sizeof names / sizeof *names };

static uint32_t table[EQLOG_TABLE_WORDS(NODES)];

static const char *const symbols[] = {
    "type", "predicate", "function", "constant", "enum", "constructor", "model", "rule", "argument", "variable",
};

/* Says what a scope is: the module's, that of a model's list (a ModelDecl is recorded with it), or one of a rule. */
static void print_scope(unsigned scope) {
    if (scope == 0) {
        printf("in the module\n");
        return;
    }
    for (size_t i = 0; i < NODES; i++) {
        if (file[i].kind == MODEL_DECL && table[EQLOG_ENTRY(NODES, i)] == scope) {
            printf("in the model %s\n", names[file[i].fields[0]]);
            return;
        }
    }
    printf("in the rule\n");
}

int main(void) {
    put_image(text, file, NODES, names, NAMES);
    if (EQLOG_TAG(eqlog_resolve(image, image_len, table, EQLOG_TABLE_WORDS(NODES))) != EQLOG_RESULT) {
        return 1;
    }
    uint32_t scope = table[EQLOG_EXIT(NODES, RULE_END)];
    for (size_t i = 0; i < NAMES; i++) {
        uint64_t answer = eqlog_lookup(image, image_len, table, EQLOG_TABLE_WORDS(NODES), scope, (const uint8_t *)names[i], strlen(names[i]));
        if (EQLOG_TAG(answer) == EQLOG_REFUSED) {
            return 1;
        }
        if (EQLOG_TAG(answer) == EQLOG_OTHER) {
            printf("%s: not declared\n", names[i]);
            continue;
        }
        printf("%s: %s, declared ", names[i], symbols[EQLOG_B(answer)]);
        print_scope(EQLOG_A(answer));
    }
    return 0;
}
