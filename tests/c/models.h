/*
 * Models with expected answers, from a file. A line is a name, a budget, a model's words and the expected answer. The words have eight
 * hexadecimal digits each; `-` at their end stands for left-over bytes, `.` for no words. The answer has `|` for line ends and `=` for spaces.
 * Where a number stands behind the budget, so many rows are lent, and the answer ends in those that are filled.
 */
#ifndef MODELS_H
#define MODELS_H

#include "../../include/bounds.h"
#include <stdio.h>
#include <stdlib.h>
#include <string.h>

enum { MOST_BYTES = 4 * BOUNDS_WORDS_SIZE };

typedef struct {
    char name[64];
    uint64_t budget;
    uint8_t bytes[MOST_BYTES + 8];
    size_t length;
    long rows; /* the number lent, or -1 */
    char expected[1 << 16];
} model;

static inline void fail(const char *what, const char *of)
{
    fprintf(stderr, "%s: %s\n", of, what);
    exit(1);
}

/* The bytes of so many words, and zeros behind them. */
static inline void set_words(model *m, const uint32_t *words, size_t count)
{
    memset(m->bytes, 0, sizeof m->bytes);
    m->length = 4 * count;
    for (size_t i = 0; i < m->length; i++)
        m->bytes[i] = (uint8_t)(words[i / 4] >> (8 * (i % 4)));
}

static inline uint8_t nibble(char c)
{
    return (uint8_t)(c <= '9' ? c - '0' : (c | 32) - 'a' + 10);
}

static inline void parse(char *line, model *m)
{
    char *name = strtok(line, " \n"), *budget = strtok(NULL, " \n"), *words = strtok(NULL, " \n"), *expected = strtok(NULL, " \n");
    char *fifth = strtok(NULL, " \n");
    if (expected == NULL)
        fail("a line that isn't four or five parts", name == NULL ? "?" : name);
    m->rows = -1;
    if (fifth != NULL) {
        m->rows = strtol(words, NULL, 10);
        words = expected;
        expected = fifth;
    }
    snprintf(m->name, sizeof m->name, "%s", name);
    m->budget = strtoull(budget, NULL, 10);
    m->length = 0;
    for (; *words != '\0' && *words != '.' && *words != '-'; words += 8, m->length += 4)
        for (int i = 0; i < 4; i++)
            m->bytes[m->length + (size_t)i] = (uint8_t)(nibble(words[6 - 2 * i]) << 4 | nibble(words[7 - 2 * i]));
    if (*words == '-') {
        memset(m->bytes + m->length, 0x50, 3);
        m->length += 3;
    }
    size_t n = 0;
    for (; *expected != '\0' && n + 2 < sizeof m->expected; expected++)
        m->expected[n++] = *expected == '|' ? '\n' : *expected == '=' ? ' ' : *expected;
    m->expected[n++] = '\n';
    m->expected[n] = '\0';
}

/* Hands each model of a file on, and returns how many there were. */
static inline long each_model(const char *path, void (*to)(const model *))
{
    static char line[10 * MOST_BYTES];
    static model m;
    long models = 0;
    FILE *file = fopen(path, "r");
    if (file == NULL)
        fail("cannot be read", path);
    for (; fgets(line, sizeof line, file) != NULL; models++) {
        parse(line, &m);
        to(&m);
    }
    fclose(file);
    return models;
}

#endif
