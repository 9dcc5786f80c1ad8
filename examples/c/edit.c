/* Prints a makefile after the commands of a script: edit SCRIPT MAKEFILE
 *
 *     cc -o edit edit.c $(pkg-config --cflags --libs mkedit)
 *
 * The status is 0, or 1 if a command was refused, or 2 for anything else; then nothing is printed. */
#include <mkedit.h>
#include <stdio.h>

/* Reads a file to its end; 0 if that is not possible. */
static int read_file(const char *name, struct mkedit_bytes *text)
{
    size_t count = 0;
    FILE *file = fopen(name, "rb");
    if (file == NULL)
        return 0;
    do {
        text->length += count;
        if (!mkedit_reserve(text, 2 * text->length + 4096))
            break;
        count = fread(text->at + text->length, 1, text->room - text->length, file);
    } while (count > 0);
    count = !feof(file);
    return fclose(file) == 0 && count == 0;
}

int main(int count, char **words)
{
    struct mkedit_bytes script = {0}, makefile = {0}, text = {0}, report = {0};
    uint64_t line = 0;
    int status = 2;
    if (count != 3 || !read_file(words[1], &script) || !read_file(words[2], &makefile)) {
        fprintf(stderr, "usage: edit SCRIPT MAKEFILE, two files that can be read\n");
    } else {
        uint32_t answer = mkedit_run(makefile.at, makefile.length, script.at, script.length, 100, &text,
                                     &report, &line);
        if (answer == MKEDIT_DONE)
            status = fwrite(text.at, 1, text.length, stdout) == text.length && fflush(stdout) == 0 ? 0 : 2;
        else if (answer == MKEDIT_REFUSED)
            status = fwrite(report.at, 1, report.length, stderr) == report.length ? 1 : 2;
        else if (answer == MKEDIT_NOT_A_COMMAND)
            fprintf(stderr, "%s:%llu: not a command\n", words[1], (unsigned long long)line);
        else
            fprintf(stderr, "edit: the answer is %u\n", (unsigned)answer);
    }
    mkedit_free(&script);
    mkedit_free(&makefile);
    mkedit_free(&text);
    mkedit_free(&report);
    return status;
}
