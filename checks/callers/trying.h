/* What the callers of checks/embed share: questions that are counted, blocks of the exact size, and scripts. */
#ifndef TRYING_H
#define TRYING_H

#include "mt.h"

#include <stdio.h>
#include <stdlib.h>
#include <string.h>

static int passed, failed;

/* Counts whether something is as it must be, and tells if it isn't. */
static inline void is(const char *what, int so) {
    passed += so != 0;
    failed += so == 0;
    if (!so) printf("%s: not as it must be\n", what);
}

/* Tells the counts; the status is 1 if something failed. */
static inline int counted(void) {
    printf("%d passed, %d failed\n", passed, failed);
    return failed != 0;
}

/* A text: some bytes, which are not ended by a zero. */
struct text {
    char *at;
    size_t length;
};

static inline struct text text_of(const char *words) { return (struct text){(char *)words, strlen(words)}; }

static inline int is_same(struct text one, struct text other) { return one.length == other.length && !memcmp(one.at, other.at, one.length); }

static inline int begins(struct text text, const char *words) { return text.length >= strlen(words) && !memcmp(text.at, words, strlen(words)); }

/* A line of a text without its line end; what is behind it is left in the text. */
static inline struct text next_line(struct text *text) {
    char *end = memchr(text->at, '\n', text->length);
    size_t length = end ? (size_t)(end - text->at) : text->length, all = end ? length + 1 : length;
    struct text line = {text->at, end && length && end[-1] == '\r' ? length - 1 : length};
    *text = (struct text){text->at + all, text->length - all};
    return line;
}

/* A script with the keyspaces that are watched: a file's first line has these. */
struct script {
    struct text whole, keyspaces, lines;
};

static inline struct script script_in(const char *name) {
    FILE *file = fopen(name, "rb");
    struct text whole = {malloc(1 << 21), 0};
    if (!file || !whole.at) exit(2);
    whole.length = fread(whole.at, 1, (1 << 21) - 1, file);
    whole.at[whole.length] = 0;
    fclose(file);
    struct script script = {whole, whole, whole};
    script.keyspaces = next_line(&script.lines);
    return script;
}

#endif
