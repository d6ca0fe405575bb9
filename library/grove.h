/* Grove for C, and for every language that calls C: an editor's calls on one live graph.
 *
 * An editor takes edits as text and actions as lines, keeps the marks of its graph from call to call, and answers its texts. docs/LIBRARY.md
 * tells of each call with an example, of what is proved and of what is not.
 *
 * Two parts stand behind these calls. The proved part is the crate grove_c, whose exports proved.h declares: what each call does to the
 * editor, which code it answers, and which bytes it writes to the caller's room. The other is grove.c, which is not proved: it looks for null
 * pointers, closed editors and lengths that no memory has, and answers GROVE_WRONG_CALL for these; every other call it hands on as it is.
 *
 * What no test can see, the caller promises:
 *   - an editor was made by grove_new, is one object that is not copied, and is given to one call at a time;
 *   - a pointer to bytes points to as many bytes as the length beside it says, and these stay as they are until the call returns;
 *   - what a call writes to, the room, the length, the bad line, the counter and the editor itself, overlaps nothing else of the same call;
 *   - no call is made from a signal handler, or in a child of fork where the parent had threads.
 * Editors may go from thread to thread, and different editors may be in calls at the same time. Memory comes from malloc, realloc and free.
 */
#ifndef GROVE_H
#define GROVE_H

#include <stddef.h>
#include <stdint.h>

#ifdef __cplusplus
extern "C" {
#endif

/* The version of these calls. It rises where a call is added; no number below changes its meaning. */
#define GROVE_VERSION 2u

/* How a call ended. After each code but GROVE_DONE the graph is as it was. */
enum {
    GROVE_DONE = 0,
    GROVE_REFUSED = 1,    /* the graph does not allow the action, or its undoing: the text GROVE_ANSWER tells why */
    GROVE_WRONG_CALL = 2, /* a null pointer, a closed editor, a length that no memory has, or a text of no known number */
    GROVE_MALFORMED = 3,  /* bytes that spell no edits, no action, no vertex or no summary */
    GROVE_NO_ROOM = 6,    /* the room is too short: the length that it has to have is written, and nothing else */
    GROVE_NO_MEMORY = 7,
    GROVE_NO_VERTEX = 8,  /* the graph has no such vertex */
    GROVE_NO_AUTHOR = 9,  /* 0 is no author */
    GROVE_NOTHING = 10    /* the author has done nothing that could be undone, or undone nothing that could be done again */
};

/* What is wrong with a line of edits, or of a summary. */
enum {
    GROVE_NO_FAULT = 0,
    GROVE_SYNTAX = 1,      /* it has not the form of an edit, or of a range */
    GROVE_BAD_VERTEX = 2,  /* the edge has no author's name, or one of its ends is not well formed */
    GROVE_NO_POSITION = 3, /* the source has no such position */
    GROVE_WRONG_SORT = 4,  /* the position wants children of another sort */
    GROVE_REST = 5,        /* the last line has no line feed */
    GROVE_OUT_OF_ORDER = 6 /* of a summary: the range does not come after the one before it, or stands right behind it */
};

/* The texts of an editor. */
enum {
    GROVE_PRINT = 0,     /* the trees of the graph, with types and marks: the print text */
    GROVE_CANONICAL = 1, /* its edits, one line for each edge, in order: the canonical text */
    GROVE_JSON = 2,      /* the report of the graph as JSON */
    GROVE_ANSWER = 3,    /* what the last action or undoing answered */
    GROVE_EDITS = 4,     /* the edits that it made, as lines: what other replicas are to be sent */
    GROVE_CHANGED = 5,   /* the records that the last call changed, a line of JSON for each vertex */
    GROVE_SUMMARY = 6    /* what the graph has, by ranges of names: what another replica is to be told to answer what this one lacks */
};

/* An editor that is held. It is the caller's object, which begins as grove_new left it. */
typedef struct grove_editor {
    void *at;
} grove_editor;

/* The first bad line, counted from 1, and what is wrong with it; 0 and GROVE_NO_FAULT where nothing is. */
typedef struct grove_bad_line {
    uint64_t line;
    uint32_t fault;
} grove_bad_line;

/* The version with which the library was built. */
uint32_t grove_version(void);

/* Makes an editor of the empty graph. What it looks up it finds by hashes under the seed: where strangers' texts are read, give a number that
 * they cannot guess. No answer depends on it. GROVE_DONE; GROVE_NO_MEMORY, GROVE_WRONG_CALL: the editor is closed. */
uint32_t grove_new(uint64_t seed, grove_editor *editor);

/* Frees an editor and closes it. A null pointer and a closed editor are left alone. */
void grove_free(grove_editor *editor);

/* Feeds some bytes of an edit text, cut anywhere, behind those that were fed before. They count once grove_take is called.
 * GROVE_DONE; GROVE_NO_MEMORY: what was fed before stays, and these bytes were not added. */
uint32_t grove_piece(grove_editor *editor, const uint8_t *bytes, size_t length);

/* Joins all edits that were fed to the graph. GROVE_DONE; GROVE_MALFORMED: none was taken, `bad` tells the first bad line, and what was fed is
 * dropped; GROVE_NO_MEMORY: none was taken, and what was fed is kept. `bad` may be null. */
uint32_t grove_take(grove_editor *editor, grove_bad_line *bad);

/* Joins an edit text to the graph, whole lines, all of them or none. GROVE_DONE, GROVE_MALFORMED, GROVE_NO_MEMORY; `bad` may be null. */
uint32_t grove_apply(grove_editor *editor, const uint8_t *edits, size_t length, grove_bad_line *bad);

/* Does an action of an author, one line without a line feed, as `construct 1.1 cond true`. GROVE_ANSWER, GROVE_EDITS and GROVE_CHANGED then have
 * what it answered, the edits that it made and the records that it changed, until another call acts or takes edits, so this call need never be
 * made again to hear of it. Each action is in a block of its own: `cut` deletes what has the name as the call is made. GROVE_DONE; GROVE_REFUSED, with an answer; GROVE_MALFORMED: it is no action;
 * GROVE_NO_AUTHOR; GROVE_NO_MEMORY. */
uint32_t grove_act(grove_editor *editor, uint32_t author, const uint8_t *line, size_t length);

/* Undoes the author's last action that was done here, was not refused and is not undone. GROVE_DONE; GROVE_REFUSED, with an answer;
 * GROVE_NOTHING; GROVE_NO_AUTHOR; GROVE_NO_MEMORY. */
uint32_t grove_undo(grove_editor *editor, uint32_t author);

/* Does again what the author undid last, where the author has not acted since. As grove_undo. */
uint32_t grove_redo(grove_editor *editor, uint32_t author);

/* Copies a text to the room, and writes its length. GROVE_DONE; GROVE_NO_ROOM: the length is written and the room is as it was;
 * GROVE_NO_MEMORY, GROVE_WRONG_CALL: nothing is written. The room may be null where its length is 0. A text is made once and then kept until
 * the editor changes or another text is asked, so to ask for the length first costs no more. */
uint32_t grove_text(grove_editor *editor, uint32_t which, uint8_t *room, size_t room_length, size_t *length);

/* Copies the record of a vertex to the room, given as its name and constructor, `1.1 if`: its line among GROVE_CHANGED. As grove_text; beside
 * that GROVE_MALFORMED: the words are no vertex; GROVE_NO_VERTEX: the graph has no such vertex. */
uint32_t grove_judged(grove_editor *editor, const uint8_t *vertex, size_t vertex_length, uint8_t *room, size_t room_length, size_t *length);

/* Copies the edits that another replica lacks to the room, given the text of its summary: what it is to apply. There are none, and the length
 * is 0, where it lacks none. Once each of two replicas has applied what the other answered, both have all edits of both, where no name was given
 * twice. As grove_text, but that what is too long for the room is not kept; beside that GROVE_MALFORMED: the bytes are no summary, and `bad`
 * tells the first bad line. `bad` may be null. */
uint32_t grove_lacking(grove_editor *editor, const uint8_t *summary, size_t summary_length, uint8_t *room, size_t room_length, size_t *length, grove_bad_line *bad);

/* Writes the greatest number that the author's names in the graph have, or 0 where there are none. GROVE_DONE; GROVE_WRONG_CALL. */
uint32_t grove_greatest(grove_editor *editor, uint32_t author, uint64_t *counter);

#ifdef __cplusplus
}
#endif

#endif
