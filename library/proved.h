/* The exports of the crate grove_c, which is proved. Each meets the contract that stands beside it in crates/grove_c/src, for callers that
 * pass no null pointer, no closed editor, and no length above PTRDIFF_MAX: grove.c sees to these. */
#ifndef GROVE_PROVED_H
#define GROVE_PROVED_H

#include "grove.h"

uint32_t grove_c_version(void);
uint32_t grove_c_new(uint64_t seed, void **at);
void grove_c_free(grove_editor editor);
uint32_t grove_c_piece(grove_editor *editor, const uint8_t *bytes, size_t length);
uint32_t grove_c_take(grove_editor *editor, grove_bad_line *bad);
uint32_t grove_c_apply(grove_editor *editor, const uint8_t *edits, size_t length, grove_bad_line *bad);
uint32_t grove_c_act(grove_editor *editor, uint32_t author, const uint8_t *line, size_t length);
uint32_t grove_c_undo(grove_editor *editor, uint32_t author);
uint32_t grove_c_redo(grove_editor *editor, uint32_t author);
uint32_t grove_c_text(grove_editor *editor, uint32_t which, uint8_t *room, size_t room_length, size_t *length);
uint32_t grove_c_judged(grove_editor *editor, const uint8_t *vertex, size_t vertex_length, uint8_t *room, size_t room_length, size_t *length);
uint32_t grove_c_lacking(grove_editor *editor, const uint8_t *summary, size_t summary_length, uint8_t *room, size_t room_length, size_t *length, grove_bad_line *bad);
uint64_t grove_c_greatest(grove_editor *editor, uint32_t author);

#endif
