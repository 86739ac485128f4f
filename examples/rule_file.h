/* A rule file as the examples write it down, and the image of it. */
#ifndef RULE_FILE_H
#define RULE_FILE_H

#include "../include/eqlog_scopes.h"

#include <string.h>

/* A row: its kind, the part of the text that it stands for, and its fields. The part is given by its bytes and by how
 * many times they stand in the text before it. */
struct row {
    uint32_t kind;
    const char *part;
    int before;
    uint32_t count;
    uint32_t fields[4];
};

static uint8_t image[EQLOG_MAX_IMAGE_BYTES];
static size_t image_len;

static void put_word(size_t word) {
    for (int b = 0; b < 4; b++) {
        image[image_len++] = (uint8_t)(word >> 8 * b);
    }
}

/* Where a row's part begins in the text. */
static size_t begin(const char *text, const struct row *row) {
    const char *at = strstr(text, row->part);
    for (int i = 0; i < row->before; i++) {
        at = strstr(at + 1, row->part);
    }
    return (size_t)(at - text);
}

static void put_image(const char *text, const struct row *file, size_t nodes, const char *const *names, size_t name_count) {
    size_t operands = 0, bytes = 0;
    for (size_t i = 0; i < nodes; i++) {
        operands += 2 + file[i].count;
    }
    for (size_t i = 0; i < name_count; i++) {
        bytes += strlen(names[i]);
    }
    put_word(nodes), put_word(operands), put_word(name_count), put_word(bytes);
    for (size_t i = 0; i < nodes; i++) {
        put_word(file[i].kind);
    }
    for (size_t i = 0, start = 0; i < nodes; start += 2 + file[i].count, i++) {
        put_word(start);
    }
    for (size_t i = 0; i < nodes; i++) {
        put_word(begin(text, &file[i])), put_word(begin(text, &file[i]) + strlen(file[i].part));
        for (size_t j = 0; j < file[i].count; j++) {
            put_word(file[i].fields[j]);
        }
    }
    for (size_t i = 0, end = 0; i < name_count; i++) {
        put_word(end += strlen(names[i]));
    }
    for (size_t i = 0; i < name_count; i++) {
        memcpy(image + image_len, names[i], strlen(names[i]));
        image_len += strlen(names[i]);
    }
}

#endif
