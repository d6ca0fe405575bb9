/* What stands between a caller and the proved exports: null pointers, closed editors and lengths that no memory has are answered here. */
#include "proved.h"

#include <stdbool.h>

/* A slice of no bytes has an address too. */
static uint8_t nothing[1];

static bool is_open(const grove_editor *editor)
{
    return editor != NULL && editor->at != NULL;
}

static bool is_slice(const uint8_t *bytes, size_t length)
{
    return length <= PTRDIFF_MAX && (bytes != NULL || length == 0);
}

static const uint8_t *read_at(const uint8_t *bytes)
{
    return bytes != NULL ? bytes : nothing;
}

static uint8_t *room_at(uint8_t *room)
{
    return room != NULL ? room : nothing;
}

uint32_t grove_version(void)
{
    return grove_c_version();
}

uint32_t grove_new(uint64_t seed, grove_editor *editor)
{
    if (editor == NULL)
        return GROVE_WRONG_CALL;
    editor->at = NULL;
    return grove_c_new(seed, &editor->at);
}

void grove_free(grove_editor *editor)
{
    if (!is_open(editor))
        return;
    grove_editor closed = *editor;
    editor->at = NULL;
    grove_c_free(closed);
}

uint32_t grove_piece(grove_editor *editor, const uint8_t *bytes, size_t length)
{
    if (!is_open(editor) || !is_slice(bytes, length))
        return GROVE_WRONG_CALL;
    return grove_c_piece(editor, read_at(bytes), length);
}

uint32_t grove_take(grove_editor *editor, grove_bad_line *bad)
{
    grove_bad_line unread = {0, GROVE_NO_FAULT};
    if (!is_open(editor))
        return GROVE_WRONG_CALL;
    return grove_c_take(editor, bad != NULL ? bad : &unread);
}

uint32_t grove_apply(grove_editor *editor, const uint8_t *edits, size_t length, grove_bad_line *bad)
{
    grove_bad_line unread = {0, GROVE_NO_FAULT};
    if (!is_open(editor) || !is_slice(edits, length))
        return GROVE_WRONG_CALL;
    return grove_c_apply(editor, read_at(edits), length, bad != NULL ? bad : &unread);
}

uint32_t grove_act(grove_editor *editor, uint32_t author, const uint8_t *line, size_t length)
{
    if (!is_open(editor) || !is_slice(line, length))
        return GROVE_WRONG_CALL;
    return grove_c_act(editor, author, read_at(line), length);
}

uint32_t grove_undo(grove_editor *editor, uint32_t author)
{
    return is_open(editor) ? grove_c_undo(editor, author) : GROVE_WRONG_CALL;
}

uint32_t grove_redo(grove_editor *editor, uint32_t author)
{
    return is_open(editor) ? grove_c_redo(editor, author) : GROVE_WRONG_CALL;
}

uint32_t grove_text(grove_editor *editor, uint32_t which, uint8_t *room, size_t room_length, size_t *length)
{
    if (!is_open(editor) || !is_slice(room, room_length) || length == NULL)
        return GROVE_WRONG_CALL;
    return grove_c_text(editor, which, room_at(room), room_length, length);
}

uint32_t grove_judged(grove_editor *editor, const uint8_t *vertex, size_t vertex_length, uint8_t *room, size_t room_length, size_t *length)
{
    if (!is_open(editor) || !is_slice(vertex, vertex_length) || !is_slice(room, room_length) || length == NULL)
        return GROVE_WRONG_CALL;
    return grove_c_judged(editor, read_at(vertex), vertex_length, room_at(room), room_length, length);
}

uint32_t grove_lacking(grove_editor *editor, const uint8_t *summary, size_t summary_length, uint8_t *room, size_t room_length, size_t *length, grove_bad_line *bad)
{
    grove_bad_line unread = {0, GROVE_NO_FAULT};
    if (!is_open(editor) || !is_slice(summary, summary_length) || !is_slice(room, room_length) || length == NULL)
        return GROVE_WRONG_CALL;
    return grove_c_lacking(editor, read_at(summary), summary_length, room_at(room), room_length, length, bad != NULL ? bad : &unread);
}

uint32_t grove_greatest(grove_editor *editor, uint32_t author, uint64_t *counter)
{
    if (!is_open(editor) || counter == NULL)
        return GROVE_WRONG_CALL;
    *counter = grove_c_greatest(editor, author);
    return GROVE_DONE;
}
