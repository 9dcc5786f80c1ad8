/* Runs a script over a makefile many times by libmkedit: ways SCRIPT MAKEFILE COUNT
 *
 * Prints the last text, and on standard error the seconds of all runs together. */
#include <mkedit.h>
#include <stdio.h>
#include <time.h>

static size_t read_file(const char *name, unsigned char *text, size_t room)
{
    FILE *file = fopen(name, "rb");
    size_t count = file != NULL ? fread(text, 1, room, file) : 0;
    if (file != NULL)
        fclose(file);
    return count;
}

int main(int count, char **words)
{
    static unsigned char script[4096], text[65536];
    struct mkedit_bytes out = {0}, report = {0};
    struct timespec start, end;
    long runs = count == 4 ? strtol(words[3], NULL, 10) : 0;
    size_t script_length = runs > 0 ? read_file(words[1], script, sizeof script) : 0;
    size_t text_length = runs > 0 ? read_file(words[2], text, sizeof text) : 0;
    clock_gettime(CLOCK_MONOTONIC, &start);
    for (; runs > 0; runs--)
        if (mkedit_run(text, text_length, script, script_length, 100, &out, &report, NULL) != MKEDIT_DONE)
            return 1;
    clock_gettime(CLOCK_MONOTONIC, &end);
    fwrite(out.at, 1, out.length, stdout);
    fprintf(stderr, "%.9f\n", (double)(end.tv_sec - start.tv_sec) + (double)(end.tv_nsec - start.tv_nsec) / 1e9);
    return 0;
}
