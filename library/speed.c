/* How long calls take on a graph of so many vertices, in microseconds of processor time: the least of some rounds.
 *
 * speed [VERTICES [MOST]]   With MOST the status is 1 where reading what an edit changed takes more than MOST microseconds beyond the edit. */
#include "asked.h"

#include <time.h>

enum { EDITS_IN_A_ROUND = 1000, ROUNDS = 7, LINE = 96 };

static double microseconds(void)
{
    struct timespec now;
    clock_gettime(CLOCK_PROCESS_CPUTIME_ID, &now);
    return (double)now.tv_sec * 1e6 + (double)now.tv_nsec / 1e3;
}

static void stop_unless(bool holds, const char *why)
{
    if (!holds) {
        fprintf(stderr, "speed: %s\n", why);
        exit(2);
    }
}

/* A tree of `plus`: the vertex k hangs under the vertex k / 2, and what is at its right is inserted last. */
static char *tree_of(long vertices, size_t *length)
{
    char *edits = malloc((size_t)vertices * LINE);
    stop_unless(edits != NULL, "no memory");
    size_t at = (size_t)sprintf(edits, "+1.2 0.0 root main 1.1 plus\n");
    for (long k = 2; k <= vertices; k++)
        at += (size_t)sprintf(edits + at, "+1.%ld 1.%ld plus %s 1.%ld plus\n", 2 * k, 2 * (k / 2) - 1, k % 2 ? "right" : "left", 2 * k - 1);
    *length = at;
    return edits;
}

static long next_name = 1;

/* Inserts a number at a free place and deletes it again, over and over; answers what an edit takes. */
static double round_of_edits(grove_editor *editor, long vertices, bool reads_changed)
{
    static uint8_t room[1 << 20];
    char lines[2][LINE];
    size_t length;
    double begun = microseconds();
    for (int k = 0; k < EDITS_IN_A_ROUND / 2; k++) {
        long name = next_name += 2, parent = vertices - k % (vertices / 4);
        for (int deletes = 0; deletes < 2; deletes++) {
            int of_line = sprintf(lines[deletes], "%c2.%ld 1.%ld plus left 2.%ld num:1\n", deletes ? '-' : '+', name + 1, 2 * parent - 1, name);
            stop_unless(grove_apply(editor, bytes_of(lines[deletes]), (size_t)of_line, NULL) == GROVE_DONE, "an edit was not taken");
            if (reads_changed)
                stop_unless(grove_text(editor, GROVE_CHANGED, room, sizeof room, &length) == GROVE_DONE, "what changed was not told");
        }
    }
    return (microseconds() - begun) / EDITS_IN_A_ROUND;
}

static double least_of_rounds(grove_editor *editor, long vertices, bool reads_changed)
{
    double least = round_of_edits(editor, vertices, reads_changed);
    for (int round = 1; round < ROUNDS; round++) {
        double other = round_of_edits(editor, vertices, reads_changed);
        least = other < least ? other : least;
    }
    return least;
}

static double time_of_act(grove_editor *editor)
{
    double begun = microseconds();
    for (int k = 0; k < 100; k++) {
        stop_unless(act(editor, 3, "wrap 1.1 left plus") == GROVE_DONE, "an action was refused");
        stop_unless(grove_undo(editor, 3) == GROVE_DONE, "an action was not undone");
    }
    return (microseconds() - begun) / 200;
}

static double time_of_text(grove_editor *editor, uint32_t which, size_t *length)
{
    /* The edit has the text made anew. */
    round_of_edits(editor, 8, false);
    double begun = microseconds();
    text made = text_of(editor, which);
    double taken = microseconds() - begun;
    stop_unless(made.code == GROVE_DONE, "no text");
    *length = made.length;
    free(made.bytes);
    return taken;
}

int main(int count, char **words)
{
    long vertices = count > 1 ? atol(words[1]) : 10000;
    size_t length;
    stop_unless(vertices >= 8, "so few vertices tell nothing");
    char *edits = tree_of(vertices, &length);
    grove_editor editor;
    stop_unless(grove_new(1, &editor) == GROVE_DONE, "no editor");
    double begun = microseconds();
    stop_unless(grove_apply(&editor, bytes_of(edits), length, NULL) == GROVE_DONE, "the tree was not taken");
    printf("%ld edits in one text: %.2f us an edit\n", vertices, (microseconds() - begun) / (double)vertices);
    free(edits);
    double edit = least_of_rounds(&editor, vertices, false), told = least_of_rounds(&editor, vertices, true);
    printf("an edit of its own: %.2f us; with what it changed: %.2f us\n", edit, told);
    printf("an action or its undoing: %.2f us\n", time_of_act(&editor));
    double print = time_of_text(&editor, GROVE_PRINT, &length);
    printf("the print text, %zu bytes: %.0f us\n", length, print);
    grove_free(&editor);
    return count > 2 && told - edit > atof(words[2]);
}
