/* One replica: one_replica EDITS FOOT SHOWN loads an edit text, takes the edits of another one at a time, and writes the print text.
 *
 * It tells what that took in lines of a key and a number: times of the processor in seconds, memory in bytes. Build it with
 * cc -O2 -I library bench/one_replica.c library/out/libgrove.a */
#include "asked.h"

#include <time.h>
#include <unistd.h>

enum { LINES_A_CALL = 1000, SEED = 1 };

static double processor(void)
{
    struct timespec now;
    clock_gettime(CLOCK_PROCESS_CPUTIME_ID, &now);
    return (double)now.tv_sec + (double)now.tv_nsec / 1e9;
}

static void stop_unless(bool holds, const char *why)
{
    if (!holds) {
        fprintf(stderr, "one_replica: %s\n", why);
        exit(1);
    }
}

static double resident(void)
{
    long all, pages = 0;
    FILE *file = fopen("/proc/self/statm", "r");
    stop_unless(file != NULL && fscanf(file, "%ld %ld", &all, &pages) == 2, "no statm");
    fclose(file);
    return (double)pages * (double)sysconf(_SC_PAGESIZE);
}

static text whole_file(const char *path)
{
    text read = {NULL, 0, 0};
    FILE *file = fopen(path, "rb");
    stop_unless(file != NULL && fseek(file, 0, SEEK_END) == 0, "no such file");
    read.length = (size_t)ftell(file);
    read.bytes = malloc(read.length + 1);
    rewind(file);
    stop_unless(read.bytes != NULL && fread(read.bytes, 1, read.length, file) == read.length, "a file was not read");
    fclose(file);
    return read;
}

/* Has the editor take so many lines a call, and answers how many lines there were. */
static double take(grove_editor *editor, text edits, long lines_a_call)
{
    const uint8_t *ends = edits.bytes + edits.length, *from = edits.bytes;
    double lines = 0;
    while (from < ends) {
        const uint8_t *to = from;
        for (long count = 0; count < lines_a_call && to < ends; count++, lines++)
            to = (const uint8_t *)memchr(to, '\n', (size_t)(ends - to)) + 1;
        stop_unless(grove_apply(editor, from, (size_t)(to - from), NULL) == GROVE_DONE, "edits were not taken");
        from = to;
    }
    return lines;
}

int main(int count, char **words)
{
    stop_unless(count == 4, "one_replica EDITS FOOT SHOWN");
    text edits = whole_file(words[1]), foot = whole_file(words[2]);
    grove_editor editor;
    double before = resident(), start = processor();
    stop_unless(grove_new(SEED, &editor) == GROVE_DONE, "no memory");
    take(&editor, edits, LINES_A_CALL);
    printf("load %.9f\nmemory_bytes %.0f\n", processor() - start, resident() - before);
    start = processor();
    double lines = take(&editor, foot, 1);
    printf("foot %.9f\n", (processor() - start) / lines);
    start = processor();
    text shown = text_of(&editor, GROVE_PRINT);
    printf("show %.9f\n", processor() - start);
    FILE *file = fopen(words[3], "wb");
    stop_unless(shown.code == GROVE_DONE && file != NULL && fwrite(shown.bytes, 1, shown.length, file) == shown.length, "nothing was written");
    grove_free(&editor);
    return fclose(file) != 0;
}
