/* An edit comes as text and an author acts on it. Another editor then catches up, and prints the program. */
#include "grove.h"
#include <stdio.h>
#include <string.h>

static void print(grove_editor *editor, uint32_t which)
{
    uint8_t room[4096];
    size_t length;
    if (grove_text(editor, which, room, sizeof room, &length) == GROVE_DONE)
        fwrite(room, 1, length, stdout);
}

/* One editor tells what it has, and takes what the other answers: the edits that it lacks. */
static uint32_t catch_up(grove_editor *late, grove_editor *other)
{
    uint8_t summary[4096], edits[4096];
    size_t summary_length, length;
    uint32_t code = grove_text(late, GROVE_SUMMARY, summary, sizeof summary, &summary_length);
    if (code == GROVE_DONE)
        code = grove_lacking(other, summary, summary_length, edits, sizeof edits, &length, NULL);
    if (code == GROVE_DONE)
        code = grove_apply(late, edits, length, NULL);
    return code;
}

int main(void)
{
    const char *edits = "+1.2 0.0 root main 1.1 if\n", *action = "construct 1.1 cond num:5";
    grove_editor editor, late;
    if (grove_new(0, &editor) != GROVE_DONE || grove_new(0, &late) != GROVE_DONE)
        return 1;
    uint32_t code = grove_apply(&editor, (const uint8_t *)edits, strlen(edits), NULL);
    if (code == GROVE_DONE)
        code = grove_act(&editor, 2, (const uint8_t *)action, strlen(action));
    print(&editor, GROVE_ANSWER);
    print(&editor, GROVE_EDITS);
    if (code == GROVE_DONE)
        code = catch_up(&late, &editor);
    print(&late, GROVE_PRINT);
    grove_free(&editor);
    grove_free(&late);
    return (int)code;
}
