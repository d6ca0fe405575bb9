/* Refuses each request for memory of a story in turn: the call that met it answers GROVE_NO_MEMORY and has changed nothing, it does its work
 * when it is made again, and in the end the texts are those of a story that was never refused, with no block left.
 * It is linked with --wrap=malloc, --wrap=realloc and --wrap=free, so that the library's requests come here. */
#include "asked.h"

enum { PRINT_AND_ANSWER = 2 };

void *__real_malloc(size_t size);
void *__real_realloc(void *block, size_t size);
void __real_free(void *block);

static long requests, refused_at, blocks;

/* Whether this request is the one to refuse. */
static bool is_refused(void)
{
    return ++requests == refused_at;
}

void *__wrap_malloc(size_t size)
{
    void *block = is_refused() ? NULL : __real_malloc(size);
    blocks += block != NULL;
    return block;
}

void *__wrap_realloc(void *block, size_t size)
{
    void *moved = is_refused() ? NULL : __real_realloc(block, size);
    blocks += block == NULL && moved != NULL;
    return moved;
}

void __wrap_free(void *block)
{
    blocks -= block != NULL;
    __real_free(block);
}

/* The texts by which an editor is told from another. No request is refused meanwhile. */
static void read_texts(grove_editor *editor, text texts[PRINT_AND_ANSWER])
{
    long until_now = requests, to_refuse = refused_at;
    refused_at = 0;
    texts[0] = text_of(editor, GROVE_PRINT);
    texts[1] = text_of(editor, GROVE_ANSWER);
    requests = until_now;
    refused_at = to_refuse;
}

static void free_texts(text texts[PRINT_AND_ANSWER])
{
    free(texts[0].bytes);
    free(texts[1].bytes);
}

/* Makes a call, and makes it again where it met the refusal. */
#define INSIST(editor, call)                                                          \
    do {                                                                              \
        text before[PRINT_AND_ANSWER], after[PRINT_AND_ANSWER];                     \
        read_texts(editor, before);                                                   \
        uint32_t code = (call);                                                       \
        if (code == GROVE_NO_MEMORY) {                                                \
            read_texts(editor, after);                                                \
            TRY(is_same(before[0], after[0]) && is_same(before[1], after[1]));        \
            free_texts(after);                                                        \
            code = (call);                                                            \
        }                                                                             \
        TRY(code == GROVE_DONE);                                                      \
        free_texts(before);                                                           \
    } while (0)

static uint32_t read_judged(grove_editor *editor)
{
    uint8_t room[256];
    size_t length;
    return grove_judged(editor, bytes_of("1.1 if"), 6, room, sizeof room, &length);
}

static uint32_t read_lacking(grove_editor *editor)
{
    uint8_t room[4096];
    size_t length;
    return grove_lacking(editor, bytes_of("+1.1-2\n-1.4\n"), 12, room, sizeof room, &length, NULL);
}

/* Every call once or more. */
static void tell_story(grove_editor *editor)
{
    uint8_t room[4096];
    size_t length;
    uint64_t counter;
    INSIST(editor, apply(editor, "+1.2 0.0 root main 1.1 if\n+1.4 1.1 if cond 1.3 true\n", NULL));
    INSIST(editor, grove_piece(editor, bytes_of("+1.6 1.1 if th"), 14));
    INSIST(editor, grove_piece(editor, bytes_of("en 1.5 plus\n"), 12));
    INSIST(editor, grove_take(editor, NULL));
    INSIST(editor, act(editor, 1, "construct 1.5 left num:5"));
    INSIST(editor, act(editor, 2, "wrap 1.1 then if"));
    INSIST(editor, act(editor, 2, "cut 1.4"));
    INSIST(editor, grove_undo(editor, 2));
    INSIST(editor, grove_redo(editor, 2));
    for (uint32_t which = GROVE_PRINT; which <= GROVE_SUMMARY; which++)
        INSIST(editor, grove_text(editor, which, room, sizeof room, &length));
    INSIST(editor, read_judged(editor));
    INSIST(editor, read_lacking(editor));
    INSIST(editor, grove_greatest(editor, 1, &counter));
}

/* Tells the story with one request refused, and answers how many requests it made. */
static long tell_refusing(long which, text last[PRINT_AND_ANSWER])
{
    grove_editor editor;
    requests = 0;
    refused_at = which;
    uint32_t code = grove_new(7, &editor);
    if (code == GROVE_NO_MEMORY) {
        TRY(editor.at == NULL);
        code = grove_new(7, &editor);
    }
    TRY(code == GROVE_DONE);
    tell_story(&editor);
    long made = requests;
    refused_at = 0;
    read_texts(&editor, last);
    grove_free(&editor);
    return made;
}

int main(void)
{
    text wanted[PRINT_AND_ANSWER], last[PRINT_AND_ANSWER];
    long made = tell_refusing(0, wanted), blocks_before = blocks;
    for (long which = 1; which <= made; which++) {
        tell_refusing(which, last);
        TRY(is_same(wanted[0], last[0]) && is_same(wanted[1], last[1]));
        free_texts(last);
        TRY(blocks == blocks_before);
    }
    free_texts(wanted);
    TRY(blocks == 0);
    printf("no_memory: %ld requests, each refused once\n", made);
    return told("no_memory");
}
