/* Calls that no careful program makes: each is answered by its code, and the editor stays as it was. */
#include "asked.h"

enum { TEXTS = 7, MEBIBYTE = 1 << 20 };

static const char STORY[] = "+1.2 0.0 root main 1.1 if\n+1.4 1.1 if cond 1.3 true\n+1.6 1.1 if then 1.5 plus\n-1.4 1.1 if cond 1.3 true\n";

static grove_editor opened(void)
{
    grove_editor editor;
    TRY(grove_new(1, &editor) == GROVE_DONE);
    return editor;
}

static grove_editor after_story(void)
{
    grove_editor editor = opened();
    TRY(apply(&editor, STORY, NULL) == GROVE_DONE);
    TRY(act(&editor, 1, "construct 1.5 left num:5") == GROVE_DONE);
    return editor;
}

/* All calls with an editor that is none. */
static void try_without_editor(grove_editor *none)
{
    uint8_t room[8];
    size_t length = 77;
    uint64_t counter = 77;
    grove_bad_line bad = {77, 77};
    TRY(grove_piece(none, bytes_of("+"), 1) == GROVE_WRONG_CALL);
    TRY(grove_take(none, &bad) == GROVE_WRONG_CALL);
    TRY(grove_apply(none, bytes_of(STORY), strlen(STORY), &bad) == GROVE_WRONG_CALL);
    TRY(act(none, 1, "cut 1.2") == GROVE_WRONG_CALL);
    TRY(grove_undo(none, 1) == GROVE_WRONG_CALL);
    TRY(grove_redo(none, 1) == GROVE_WRONG_CALL);
    TRY(grove_text(none, GROVE_PRINT, room, sizeof room, &length) == GROVE_WRONG_CALL);
    TRY(grove_judged(none, bytes_of("1.1 if"), 6, room, sizeof room, &length) == GROVE_WRONG_CALL);
    TRY(grove_lacking(none, NULL, 0, room, sizeof room, &length, &bad) == GROVE_WRONG_CALL);
    TRY(grove_greatest(none, 1, &counter) == GROVE_WRONG_CALL);
    grove_free(none);
    TRY(length == 77 && counter == 77 && bad.line == 77 && bad.fault == 77);
}

static void try_editors_that_are_none(void)
{
    TRY(grove_new(1, NULL) == GROVE_WRONG_CALL);
    try_without_editor(NULL);
    grove_editor closed = opened();
    grove_free(&closed);
    TRY(closed.at == NULL);
    try_without_editor(&closed);
}

static void try_null_pointers(grove_editor *editor)
{
    uint8_t room[8];
    size_t length = 77;
    TRY(grove_piece(editor, NULL, 1) == GROVE_WRONG_CALL);
    TRY(grove_apply(editor, NULL, 1, NULL) == GROVE_WRONG_CALL);
    TRY(grove_act(editor, 1, NULL, 1) == GROVE_WRONG_CALL);
    TRY(grove_text(editor, GROVE_PRINT, NULL, 1, &length) == GROVE_WRONG_CALL);
    TRY(grove_text(editor, GROVE_PRINT, room, sizeof room, NULL) == GROVE_WRONG_CALL);
    TRY(grove_judged(editor, NULL, 1, room, sizeof room, &length) == GROVE_WRONG_CALL);
    TRY(grove_judged(editor, bytes_of("1.1 if"), 6, NULL, 1, &length) == GROVE_WRONG_CALL);
    TRY(grove_judged(editor, bytes_of("1.1 if"), 6, room, sizeof room, NULL) == GROVE_WRONG_CALL);
    TRY(grove_lacking(editor, NULL, 1, room, sizeof room, &length, NULL) == GROVE_WRONG_CALL);
    TRY(grove_lacking(editor, bytes_of("+1.1\n"), 5, NULL, 1, &length, NULL) == GROVE_WRONG_CALL);
    TRY(grove_lacking(editor, bytes_of("+1.1\n"), 5, room, sizeof room, NULL, NULL) == GROVE_WRONG_CALL);
    TRY(grove_greatest(editor, 1, NULL) == GROVE_WRONG_CALL);
    TRY(length == 77);
}

/* A length of 0 needs no pointer. */
static void try_nothing(grove_editor *editor)
{
    size_t length;
    TRY(grove_piece(editor, NULL, 0) == GROVE_DONE);
    TRY(grove_act(editor, 1, NULL, 0) == GROVE_MALFORMED);
    TRY(grove_text(editor, GROVE_PRINT, NULL, 0, &length) == GROVE_NO_ROOM);
    TRY(grove_judged(editor, NULL, 0, NULL, 0, &length) == GROVE_MALFORMED);
    TRY(grove_lacking(editor, NULL, 0, NULL, 0, &length, NULL) == GROVE_NO_ROOM);
}

static void try_lengths(grove_editor *editor)
{
    uint8_t byte[1] = {'+'};
    size_t length = 77;
    for (size_t long_one = SIZE_MAX; long_one > PTRDIFF_MAX; long_one = long_one / 4 * 3) {
        TRY(grove_piece(editor, byte, long_one) == GROVE_WRONG_CALL);
        TRY(grove_apply(editor, byte, long_one, NULL) == GROVE_WRONG_CALL);
        TRY(grove_act(editor, 1, byte, long_one) == GROVE_WRONG_CALL);
        TRY(grove_text(editor, GROVE_PRINT, byte, long_one, &length) == GROVE_WRONG_CALL);
        TRY(grove_judged(editor, byte, long_one, byte, 0, &length) == GROVE_WRONG_CALL);
        TRY(grove_judged(editor, byte, 1, byte, long_one, &length) == GROVE_WRONG_CALL);
        TRY(grove_lacking(editor, byte, long_one, byte, 0, &length, NULL) == GROVE_WRONG_CALL);
        TRY(grove_lacking(editor, byte, 0, byte, long_one, &length, NULL) == GROVE_WRONG_CALL);
    }
    TRY(length == 77 && byte[0] == '+');
}

static void try_numbers(grove_editor *editor)
{
    uint8_t room[4096];
    size_t length = 77;
    for (uint32_t which = TEXTS; which < UINT32_MAX / 3; which *= 3)
        TRY(grove_text(editor, which, room, sizeof room, &length) == GROVE_WRONG_CALL);
    TRY(grove_text(editor, UINT32_MAX, room, sizeof room, &length) == GROVE_WRONG_CALL);
    TRY(length == 77);
    TRY(act(editor, 0, "cut 1.2") == GROVE_NO_AUTHOR);
    TRY(grove_undo(editor, 0) == GROVE_NO_AUTHOR);
    TRY(grove_redo(editor, 0) == GROVE_NO_AUTHOR);
    TRY(grove_undo(editor, 99) == GROVE_NOTHING);
    TRY(grove_redo(editor, 99) == GROVE_NOTHING);
    TRY(act(editor, UINT32_MAX, "cut 9.9") == GROVE_REFUSED);
}

static void try_words(grove_editor *editor)
{
    static const char *const actions[] = {"cut", "cut ", "cut 1.2 ", " cut 1.2", "cut 1.2\n", "cut 01.2", "cut 1", "frob 1.1", "construct 1.1 cond", "construct 1.1 side true",
                                          "construct 1.1 cond nothing", "construct 1.1 cond num:", "wrap 1.1 then", "cut 4294967296.1", "\xff", "1 cut 1.2"};
    static const char *const vertices[] = {"1.1", "1.1 ", "1.1  if", "if", "1.1 iff", "1.1 if ", "x.1 if", "1.1 num:x"};
    uint8_t room[256];
    size_t length = 77;
    for (size_t k = 0; k < sizeof actions / sizeof *actions; k++)
        TRY(act(editor, 1, actions[k]) == GROVE_MALFORMED);
    for (size_t k = 0; k < sizeof vertices / sizeof *vertices; k++)
        TRY(grove_judged(editor, bytes_of(vertices[k]), strlen(vertices[k]), room, sizeof room, &length) == GROVE_MALFORMED);
    TRY(grove_judged(editor, bytes_of("1.1 plus"), 8, room, sizeof room, &length) == GROVE_NO_VERTEX);
    TRY(grove_judged(editor, bytes_of("7.7 if"), 6, room, sizeof room, &length) == GROVE_NO_VERTEX);
    TRY(length == 77);
}

/* Rooms of every length: none is written to beyond a text, and none that is too short is written to at all. */
static void try_rooms(grove_editor *editor, uint32_t which)
{
    text wanted = text_of(editor, which);
    TRY(wanted.code == GROVE_DONE);
    for (size_t room_length = 0; room_length <= wanted.length + 3; room_length++) {
        uint8_t *room = malloc(room_length + 1);
        memset(room, 0xAA, room_length + 1);
        size_t length = 77;
        uint32_t code = grove_text(editor, which, room, room_length, &length);
        size_t written = room_length < wanted.length ? 0 : wanted.length;
        TRY(code == (room_length < wanted.length ? GROVE_NO_ROOM : GROVE_DONE));
        TRY(length == wanted.length);
        TRY(written == 0 || memcmp(room, wanted.bytes, written) == 0);
        for (size_t at = written; at <= room_length; at++)
            TRY(room[at] == 0xAA);
        free(room);
    }
    free(wanted.bytes);
}

/* A text that is cut anywhere: its first part alone, and both parts as pieces. */
static void try_cuts(void)
{
    grove_editor whole = after_story();
    text canonical = text_of(&whole, GROVE_CANONICAL);
    for (size_t cut = 0; cut <= canonical.length; cut++) {
        grove_editor editor = opened();
        text empty = text_of(&editor, GROVE_CANONICAL);
        uint8_t *front = malloc(cut + 1), *back = malloc(canonical.length - cut + 1);
        memcpy(front, canonical.bytes, cut);
        memcpy(back, canonical.bytes + cut, canonical.length - cut);
        bool is_line_end = cut == 0 || canonical.bytes[cut - 1] == '\n';
        grove_bad_line bad = {77, 77};
        TRY(grove_apply(&editor, front, cut, &bad) == (is_line_end ? GROVE_DONE : GROVE_MALFORMED));
        TRY(is_line_end ? bad.line == 0 && bad.fault == GROVE_NO_FAULT : bad.line > 0 && bad.fault == GROVE_REST);
        TRY(is_line_end || has_text(&editor, GROVE_CANONICAL, empty));
        TRY(grove_piece(&editor, front, cut) == GROVE_DONE);
        TRY(grove_piece(&editor, back, canonical.length - cut) == GROVE_DONE);
        TRY(grove_take(&editor, &bad) == GROVE_DONE && bad.line == 0);
        TRY(has_text(&editor, GROVE_CANONICAL, canonical));
        free(front);
        free(back);
        free(empty.bytes);
        grove_free(&editor);
    }
    free(canonical.bytes);
    grove_free(&whole);
}

/* Each byte of a text made another: all of it is taken, or none of it. */
static void try_other_bytes(void)
{
    static const uint8_t others[] = {0, ' ', '\n', '\r', '.', '+', '0', '7', 'a', 0x7f, 0x80, 0xff};
    grove_editor editor = after_story();
    for (size_t at = 0; at < strlen(STORY); at++) {
        for (size_t k = 0; k < sizeof others; k++) {
            char bent[sizeof STORY];
            memcpy(bent, STORY, sizeof STORY);
            bent[at] = (char)others[k];
            text before = text_of(&editor, GROVE_CANONICAL);
            grove_bad_line bad = {77, 77};
            uint32_t code = grove_apply(&editor, bytes_of(bent), strlen(STORY), &bad);
            TRY(code == GROVE_DONE || code == GROVE_MALFORMED);
            TRY(code == GROVE_DONE ? bad.line == 0 && bad.fault == GROVE_NO_FAULT : bad.line > 0 && bad.fault >= GROVE_SYNTAX && bad.fault <= GROVE_REST);
            TRY(code == GROVE_DONE || has_text(&editor, GROVE_CANONICAL, before));
            free(before.bytes);
        }
    }
    grove_free(&editor);
}

/* Texts of sixteen mebibytes: one of no line, one line over and over, and one whose last line is bad. */
static void try_long_texts(void)
{
    static const char line[] = "+1.2 0.0 root main 1.1 if\n";
    size_t each = strlen(line), count = 16 * (size_t)MEBIBYTE / each + 1, length = count * each;
    uint8_t *bytes = malloc(length);
    grove_editor editor = opened();
    grove_bad_line bad;
    memset(bytes, 'x', length);
    TRY(grove_apply(&editor, bytes, length, &bad) == GROVE_MALFORMED && bad.line == 1);
    for (size_t k = 0; k < count; k++)
        memcpy(bytes + k * each, line, each);
    TRY(grove_apply(&editor, bytes, length, &bad) == GROVE_DONE);
    bytes[length - 2] = '#';
    for (size_t at = 0; at < length; at += MEBIBYTE)
        TRY(grove_piece(&editor, bytes + at, length - at < MEBIBYTE ? length - at : MEBIBYTE) == GROVE_DONE);
    TRY(grove_take(&editor, &bad) == GROVE_MALFORMED && bad.line == count);
    TRY(grove_take(&editor, &bad) == GROVE_DONE);
    free(bytes);
    grove_free(&editor);
}

/* An answer is read as often as is wanted, and reading it does nothing again. */
static void try_answers(void)
{
    grove_editor editor = after_story();
    text canonical = text_of(&editor, GROVE_CANONICAL);
    text answer = text_of(&editor, GROVE_ANSWER);
    for (uint32_t which = 0; which < TEXTS; which++) {
        text once = text_of(&editor, which);
        TRY(has_text(&editor, which, once));
        free(once.bytes);
    }
    TRY(has_text(&editor, GROVE_ANSWER, answer));
    TRY(has_text(&editor, GROVE_CANONICAL, canonical));
    TRY(act(&editor, 1, "cut 99.99") == GROVE_REFUSED);
    TRY(!has_text(&editor, GROVE_ANSWER, answer));
    TRY(has_text(&editor, GROVE_CANONICAL, canonical));
    free(canonical.bytes);
    free(answer.bytes);
    grove_free(&editor);
}

static uint32_t lacking(grove_editor *editor, const char *summary, uint8_t *room, size_t room_length, size_t *length, grove_bad_line *bad)
{
    return grove_lacking(editor, bytes_of(summary), strlen(summary), room, room_length, length, bad);
}

/* Texts that are no summary: each is refused with its first bad line, and nothing is written. */
static void try_bad_summaries(grove_editor *editor)
{
    static const struct {
        const char *text;
        uint64_t line;
        uint32_t fault;
    } bads[] = {{"\n", 1, GROVE_SYNTAX},         {"+\n", 1, GROVE_SYNTAX},           {"1.1\n", 1, GROVE_SYNTAX},           {"+1.2-2\n", 1, GROVE_SYNTAX},
                {"+1.3-2\n", 1, GROVE_SYNTAX},   {"+1.1-\n", 1, GROVE_SYNTAX},       {"+1.01\n", 1, GROVE_SYNTAX},         {"+4294967296.1\n", 1, GROVE_SYNTAX},
                {"+1.1 \n", 1, GROVE_SYNTAX},    {"+1.1\r\n", 1, GROVE_SYNTAX},      {"+1.18446744073709551616\n", 1, GROVE_SYNTAX},
                {"+1.1", 1, GROVE_REST},         {"+1.1\n+1.3", 2, GROVE_REST},      {"+1.1\n+1.1\n", 2, GROVE_OUT_OF_ORDER}, {"+1.1-4\n+1.5\n", 2, GROVE_OUT_OF_ORDER},
                {"+2.1\n+1.1\n", 2, GROVE_OUT_OF_ORDER}, {"-1.1\n+1.1\n", 2, GROVE_OUT_OF_ORDER}, {"+1.1\n-1.1\n+2.1\n", 3, GROVE_OUT_OF_ORDER},
                {"grove 2\n", 1, GROVE_SYNTAX}};
    uint8_t room[4096];
    memset(room, 0xAA, sizeof room);
    for (size_t k = 0; k < sizeof bads / sizeof *bads; k++) {
        size_t length = 77;
        grove_bad_line bad = {77, 77};
        TRY(lacking(editor, bads[k].text, room, sizeof room, &length, &bad) == GROVE_MALFORMED);
        TRY(length == 77 && bad.line == bads[k].line && bad.fault == bads[k].fault);
        TRY(lacking(editor, bads[k].text, room, sizeof room, &length, NULL) == GROVE_MALFORMED);
    }
    for (size_t at = 0; at < sizeof room; at++)
        TRY(room[at] == 0xAA);
}

/* What is lacking has no room that is too short, and is none where nothing is lacking. */
static void try_lacking(void)
{
    grove_editor editor = after_story(), other = opened();
    text canonical = text_of(&editor, GROVE_CANONICAL), summary = text_of(&editor, GROVE_SUMMARY), none = text_of(&other, GROVE_SUMMARY);
    TRY(none.length == 0 && summary.code == GROVE_DONE);
    for (size_t room_length = 0; room_length <= canonical.length + 3; room_length++) {
        uint8_t *room = malloc(room_length + 1);
        memset(room, 0xAA, room_length + 1);
        size_t length = 77, written = room_length < canonical.length ? 0 : canonical.length;
        grove_bad_line bad = {77, 77};
        TRY(grove_lacking(&editor, none.bytes, none.length, room, room_length, &length, &bad) == (written == 0 ? GROVE_NO_ROOM : GROVE_DONE));
        TRY(length == canonical.length && bad.line == 0 && bad.fault == GROVE_NO_FAULT);
        TRY(written == 0 || memcmp(room, canonical.bytes, written) == 0);
        for (size_t at = written; at <= room_length; at++)
            TRY(room[at] == 0xAA);
        free(room);
    }
    size_t length = 77;
    TRY(grove_lacking(&editor, summary.bytes, summary.length, NULL, 0, &length, NULL) == GROVE_DONE && length == 0);
    TRY(grove_lacking(&other, summary.bytes, summary.length, NULL, 0, &length, NULL) == GROVE_DONE && length == 0);
    TRY(has_text(&editor, GROVE_CANONICAL, canonical));
    try_bad_summaries(&editor);
    free(canonical.bytes);
    free(summary.bytes);
    grove_free(&editor);
    grove_free(&other);
}

int main(void)
{
    try_editors_that_are_none();
    grove_editor editor = after_story();
    text canonical = text_of(&editor, GROVE_CANONICAL);
    try_null_pointers(&editor);
    try_nothing(&editor);
    try_lengths(&editor);
    try_numbers(&editor);
    try_words(&editor);
    for (uint32_t which = 0; which < TEXTS; which++)
        try_rooms(&editor, which);
    TRY(has_text(&editor, GROVE_CANONICAL, canonical));
    free(canonical.bytes);
    grove_free(&editor);
    try_cuts();
    try_other_bytes();
    try_long_texts();
    try_answers();
    try_lacking();
    TRY(grove_version() == GROVE_VERSION);
    return told("wrong_calls");
}
