/* What the programs that try the library have in common: texts in memory of just their length, and what is told of a failed try. */
#ifndef GROVE_ASKED_H
#define GROVE_ASKED_H

#include "grove.h"

#include <stdbool.h>
#include <stdio.h>
#include <stdlib.h>
#include <string.h>

static unsigned long tried, failed;

/* Counts a try, and tells of it where it went wrong. */
#define TRY(holds)                                                                  \
    do {                                                                            \
        tried++;                                                                    \
        if (!(holds)) {                                                             \
            failed++;                                                               \
            fprintf(stderr, "%s:%d: not so: %s\n", __FILE__, __LINE__, #holds);     \
        }                                                                           \
    } while (0)

/* A text that was copied from an editor, to memory of its length. */
typedef struct text {
    uint8_t *bytes;
    size_t length;
    uint32_t code;
} text;

static inline text text_of(grove_editor *editor, uint32_t which)
{
    text made = {NULL, 0, 0};
    made.code = grove_text(editor, which, NULL, 0, &made.length);
    if (made.code != GROVE_NO_ROOM)
        return made;
    made.bytes = malloc(made.length);
    made.code = made.bytes == NULL ? GROVE_NO_MEMORY : grove_text(editor, which, made.bytes, made.length, &made.length);
    return made;
}

static inline bool is_same(text one, text other)
{
    return one.code == other.code && one.length == other.length && (one.length == 0 || memcmp(one.bytes, other.bytes, one.length) == 0);
}

/* Whether the editor's text of this number is this one. */
static inline bool has_text(grove_editor *editor, uint32_t which, text wanted)
{
    text made = text_of(editor, which);
    bool same = is_same(made, wanted);
    free(made.bytes);
    return same;
}

static inline const uint8_t *bytes_of(const char *words)
{
    return (const uint8_t *)words;
}

static inline uint32_t apply(grove_editor *editor, const char *edits, grove_bad_line *bad)
{
    return grove_apply(editor, bytes_of(edits), strlen(edits), bad);
}

static inline uint32_t act(grove_editor *editor, uint32_t author, const char *line)
{
    return grove_act(editor, author, bytes_of(line), strlen(line));
}

/* Tells how the tries went, as the status of a program. */
static inline int told(const char *program)
{
    printf("%s: %lu tries, %lu failed\n", program, tried, failed);
    return failed != 0;
}

#endif
