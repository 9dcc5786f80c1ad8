/* What afl-fuzz runs: mkedit over one input after another, in one process.
 *
 * An input is a script, a line `%%`, and a makefile. A digit from 1 to 9 after the `%%` is the depth. A
 * `!` and up to three digits after that say how many growths of memory are granted before one is refused.
 * The script is run with -k. Then it is run again with all undone after it, and the makefile has to come
 * out. An input without such a line is a makefile, and each query is asked of it.
 *
 * A trap of the program ends the process. So does abort, called here where a run ends as none may. Both
 * are a crash to afl-fuzz.
 *
 * The linker gives the program's own `main` the name __real_main (--wrap=main). The program takes its
 * words from rattle_arg and rattle_arg_count, which the toolchain has in C, and which stand here in
 * place of those. Its memory comes from malloc and realloc, which are wrapped too. Its files are in
 * memory.
 */
#define _GNU_SOURCE
#include <stdio.h>
#include <stdlib.h>
#include <string.h>
#include <sys/mman.h>
#include <unistd.h>

#define RUNS_OF_A_PROCESS 10000
#define MOST_WORDS 8
#define TOO_DEEP "mkedit: too deep\n"
#define NO_MEMORY "mkedit: no memory\n"

typedef struct {
    int number;
    char name[32];
} file;

typedef struct {
    const unsigned char *bytes;
    size_t size;
} text;

/* What a line `%%` says: the depth, and the number of growths before one is refused, below 0 for none. */
typedef struct {
    int depth;
    int granted;
} options;

extern int __real_main(void);
extern void *__real_malloc(size_t size);
extern void *__real_realloc(void *block, size_t size);

__AFL_FUZZ_INIT();

static const char *words[MOST_WORDS];
static size_t word_count;
static file script_file, makefile_file;
/* Standard error as it was at first: the program has another. */
static int messages;

/* ---- the words of the command line */

size_t rattle_arg_count(void) { return word_count; }

/* Copies a word, without its NUL. Returns its length, -1 where there is none, -2 where it is too long. */
ssize_t rattle_arg(size_t at, char *to, size_t room) {
    if (at >= word_count) return -1;
    size_t size = strlen(words[at]);
    if (size > room) return -2;
    memcpy(to, words[at], size);
    return (ssize_t)size;
}

/* ---- memory */

/* How many growths are granted before one is refused, below 0 where none is; and whether one was. */
static int granted = -1;
static int was_refused;

static int refuses(void) {
    if (granted < 0 || granted--) return 0;
    was_refused = 1;
    return 1;
}

void *__wrap_malloc(size_t size) { return refuses() ? NULL : __real_malloc(size); }

void *__wrap_realloc(void *block, size_t size) {
    return refuses() ? NULL : __real_realloc(block, size);
}

/* ---- files */

static void stop_unless(int is_so, const char *why) {
    if (is_so) return;
    dprintf(messages, "harness: %s\n", why);
    abort();
}

static file file_in_memory(const char *name) {
    file made = {.number = memfd_create(name, 0)};
    stop_unless(made.number >= 0, "no file in memory");
    snprintf(made.name, sizeof made.name, "/proc/self/fd/%d", made.number);
    return made;
}

static void empty(int number) {
    stop_unless(!ftruncate(number, 0) && !lseek(number, 0, SEEK_SET), "a file cannot be emptied");
}

static void add(int number, const void *bytes, size_t size) {
    stop_unless(write(number, bytes, size) == (ssize_t)size, "a file cannot be written");
}

static void fill(int number, text it) {
    empty(number);
    add(number, it.bytes, it.size);
}

static int ends_in(int number, const void *bytes, size_t size) {
    static char *found;
    off_t from = lseek(number, 0, SEEK_END) - (off_t)size;
    if (from < 0) return 0;
    found = realloc(found, size + 1);
    return pread(number, found, size, from) == (ssize_t)size && !memcmp(found, bytes, size);
}

static int holds(int number, const void *bytes, size_t size) {
    return lseek(number, 0, SEEK_END) == (off_t)size && ends_in(number, bytes, size);
}

/* ---- inputs */

/* Whether a line without its end is `%%`; sets what it says. */
static int is_separator(const unsigned char *line, size_t size, options *said) {
    size_t at = 2;
    *said = (options){.depth = 100, .granted = -1};
    if (size < 2 || line[0] != '%' || line[1] != '%') return 0;
    if (at < size && line[at] >= '1' && line[at] <= '9') said->depth = line[at++] - '0';
    if (at == size) return 1;
    if (line[at++] != '!' || at == size || size - at > 3) return 0;
    for (said->granted = 0; at < size; at++) {
        if (line[at] < '0' || line[at] > '9') return 0;
        said->granted = 10 * said->granted + line[at] - '0';
    }
    return 1;
}

/* The place of the line `%%`, or the size where there is none; sets what it says, and where it ends. */
static size_t separator(text input, options *said, size_t *end) {
    for (size_t at = 0; at < input.size; at = *end) {
        const unsigned char *line = input.bytes + at, *feed = memchr(line, '\n', input.size - at);
        if (!feed) break;
        *end = (size_t)(feed + 1 - input.bytes);
        if (is_separator(line, (size_t)(feed - line), said)) return at;
    }
    return input.size;
}

/* ---- runs */

/* Runs mkedit with the words that stand in `words`, and returns its status, where it may end so. */
static int run(size_t count, int greatest) {
    word_count = count;
    empty(STDOUT_FILENO);
    empty(STDERR_FILENO);
    int status = __real_main();
    granted = -1;
    int is_silent = holds(STDERR_FILENO, "", 0);
    stop_unless(is_silent == (status == 0), "a status without a word, or a word without a status");
    if (status == 3) {
        stop_unless(holds(STDOUT_FILENO, "", 0), "a text after a fault");
        if (holds(STDERR_FILENO, TOO_DEEP, strlen(TOO_DEEP))) return status;
        if (was_refused && ends_in(STDERR_FILENO, NO_MEMORY, strlen(NO_MEMORY))) return status;
    }
    stop_unless(status >= 0 && status <= greatest, "a status that may not be");
    return status;
}

static int edit(int depth) {
    char digits[12];
    snprintf(digits, sizeof digits, "%d", depth);
    const char *line[] = {"mkedit", "edit", "-k", "-d", digits, script_file.name, makefile_file.name};
    memcpy(words, line, sizeof line);
    return run(sizeof line / sizeof *line, 2);
}

static void edit_and_undo(text script, text makefile, options said) {
    fill(script_file.number, script);
    fill(makefile_file.number, makefile);
    granted = said.granted;
    if (edit(said.depth) > 1) return;
    int lines = 1;
    add(script_file.number, "\ncancel\nundo\n", 13);
    for (size_t at = 0; at < script.size; at++) {
        if (script.bytes[at] != '\n') continue;
        add(script_file.number, "undo\n", 5);
        lines++;
    }
    int status = edit(lines);
    int is_first = holds(STDOUT_FILENO, makefile.bytes, makefile.size);
    stop_unless(status == 1 && is_first, "undoing all does not give the first bytes");
}

static void ask(text makefile) {
    static const char *queries[] = {"vars", "rules", "recipes", "check", "caveats"};
    fill(makefile_file.number, makefile);
    for (size_t at = 0; at < sizeof queries / sizeof *queries; at++) {
        const char *line[] = {"mkedit", queries[at], makefile_file.name};
        memcpy(words, line, sizeof line);
        run(sizeof line / sizeof *line, 0);
    }
}

static void take(text input) {
    options said;
    size_t end, at = separator(input, &said, &end);
    was_refused = 0;
    if (at == input.size) {
        ask(input);
    } else {
        text script = {input.bytes, at}, makefile = {input.bytes + end, input.size - end};
        edit_and_undo(script, makefile, said);
    }
}

int __wrap_main(void) {
    messages = dup(STDERR_FILENO);
    script_file = file_in_memory("script");
    makefile_file = file_in_memory("makefile");
    dup2(file_in_memory("out").number, STDOUT_FILENO);
    dup2(file_in_memory("report").number, STDERR_FILENO);
    __AFL_INIT();
    const unsigned char *bytes = __AFL_FUZZ_TESTCASE_BUF;
    while (__AFL_LOOP(RUNS_OF_A_PROCESS)) {
        text input = {bytes, (size_t)__AFL_FUZZ_TESTCASE_LEN};
        take(input);
    }
    return 0;
}
