/* Calls the library as bad callers do, and ends with the number of the line of the first check that fails, or 0.
 * It is linked with --wrap, so that an allocation can be refused, and blocks that nobody gave up are counted. */
#include <mkedit.h>
#include <pthread.h>
#include <stdio.h>
#include <string.h>

#define CHECK(holds) do { if (!(holds)) { fprintf(stderr, "line %d: %s\n", __LINE__, #holds); exit(1); } } while (0)
#define TEXT "CC = gcc # c\n"
#define SCRIPT "set CC clang\n"
#define EDITED "CC = clang # c\n"

void *__real_malloc(size_t);
void *__real_realloc(void *, size_t);
void __real_free(void *);

/* How many allocations are granted from now on, and how many blocks are held. */
static long granted = -1, held;

static int is_granted(void)
{
    return granted < 0 || granted-- > 0;
}
void *__wrap_malloc(size_t size)
{
    void *at = is_granted() ? __real_malloc(size) : NULL;
    if (at != NULL)
        __atomic_add_fetch(&held, 1, __ATOMIC_SEQ_CST);
    return at;
}
void *__wrap_realloc(void *old, size_t size)
{
    void *at = is_granted() ? __real_realloc(old, size) : NULL;
    if (old == NULL && at != NULL)
        __atomic_add_fetch(&held, 1, __ATOMIC_SEQ_CST);
    return at;
}
void __wrap_free(void *at)
{
    if (at != NULL)
        __atomic_sub_fetch(&held, 1, __ATOMIC_SEQ_CST);
    __real_free(at);
}

static int is(const struct mkedit_bytes *bytes, const char *text)
{
    return bytes->length == strlen(text) && memcmp(bytes->at, text, bytes->length) == 0;
}
static uint32_t run(const char *text, const char *script, uint32_t depth, struct mkedit_bytes *out,
                    struct mkedit_bytes *report, uint64_t *line)
{
    return mkedit_run(text, strlen(text), script, strlen(script), depth, out, report, line);
}

/* The answers of runs, and that nothing is written where the answer is another. */
static void test_runs(void)
{
    struct mkedit_bytes out = {0}, report = {0};
    uint64_t line = 99;
    CHECK(run(TEXT, SCRIPT, 1, &out, &report, &line) == MKEDIT_DONE && is(&out, EDITED) && report.length == 0);
    CHECK(run(TEXT, "set CC tcc\nset CXX g++\n", 1, &out, &report, &line) == MKEDIT_REFUSED);
    CHECK(is(&out, EDITED) && is(&report, "2: refused 4 NoSuch\n") && line == 99);
    CHECK(run(TEXT, "undo\nset CC tcc\n", 1, &out, &report, NULL) == MKEDIT_REFUSED);
    CHECK(is(&out, EDITED) && is(&report, "1: refused 16 NothingToUndo\n"));
    CHECK(run(TEXT, "set CC tcc\n\nfrobnicate\n", 1, &out, &report, NULL) == MKEDIT_NOT_A_COMMAND);
    CHECK(run(TEXT, "set CC tcc\n\nfrobnicate\n", 1, &out, &report, &line) == MKEDIT_NOT_A_COMMAND && line == 3);
    CHECK(run(TEXT, SCRIPT, 0, &out, &report, &line) == MKEDIT_BAD_DEPTH);
    CHECK(run(TEXT, SCRIPT, MKEDIT_MAX_DEPTH + 1, &out, &report, &line) == MKEDIT_BAD_DEPTH);
    CHECK(is(&out, EDITED) && is(&report, "1: refused 16 NothingToUndo\n") && line == 3);
    CHECK(mkedit_run(NULL, 0, NULL, 0, 1, &out, &report, NULL) == MKEDIT_DONE && out.length == 0);
    CHECK(mkedit_run(NULL, 0, SCRIPT, strlen(SCRIPT), 1, &out, &report, NULL) == MKEDIT_REFUSED);
    CHECK(mkedit_run("A\0=\n", 4, NULL, 0, 1, &out, &report, NULL) == MKEDIT_DONE && out.length == 4);
    mkedit_free(&out);
    mkedit_free(&report);
    CHECK(held == 0 && mkedit_version() == MKEDIT_VERSION);
}

/* Sizes past a limit. Where a text is too long, none of its bytes is read. */
static void test_limits(void)
{
    struct mkedit_bytes out = {0}, report = {0}, deep = {0};
    size_t lengths[] = {MKEDIT_MAX_TEXT + 1, SIZE_MAX / 2, SIZE_MAX}, size = 5, at, count = 0;
    struct mkedit_told told = {1, 1, 1};
    unsigned char small[15] = "before", unread[1] = "";
    for (at = 0; at < 3; at++) {
        CHECK(mkedit_run("", lengths[at], "", 0, 1, &out, &report, NULL) == MKEDIT_TOO_LONG);
        CHECK(mkedit_run("", 0, "", lengths[at], 0, &out, &report, NULL) == MKEDIT_TOO_LONG);
        CHECK(mkedit_diff("", lengths[at], "", 0, "", 0, &out) == MKEDIT_TOO_LONG);
        CHECK(mkedit_diff("", 0, "", lengths[at], "", 0, &out) == MKEDIT_TOO_LONG);
        CHECK(mkedit_diff("", 0, "", 0, "", lengths[at], &out) == MKEDIT_TOO_LONG);
        CHECK(mkedit_list(MKEDIT_VARS, "", lengths[at], "", 0, &out) == MKEDIT_TOO_LONG);
        CHECK(mkedit_list(MKEDIT_VARS, "", 0, "", lengths[at], &out) == MKEDIT_TOO_LONG);
    }
    CHECK(mkedit_run_into(unread, MKEDIT_MAX_TEXT + 1, unread, 0, 1, small, 6, small + 6, 0, &told) == MKEDIT_TOO_LONG);
    CHECK(told.text == 0 && told.report == 0 && told.line == 0 && memcmp(small, "before", 6) == 0);
    CHECK(mkedit_run_into((const unsigned char *)TEXT, strlen(TEXT), (const unsigned char *)SCRIPT, strlen(SCRIPT), 1,
                          small, 14, small + 14, 1, &told) == MKEDIT_NO_ROOM);
    CHECK(told.text == strlen(EDITED) && memcmp(small, "before\0\0\0\0\0\0\0\0", 15) == 0);
    CHECK(mkedit_diff_into(unread, 1, unread, 0, unread, 0, small, 6, &size) == MKEDIT_NO_ROOM && size > 6);
    CHECK(mkedit_list_into(4, unread, 0, unread, 0, small, 6, &size) == MKEDIT_NO_SUCH_LIST && size == 0);
    CHECK(memcmp(small, "before", 6) == 0 && out.at == NULL && report.at == NULL);
    CHECK(mkedit_reserve(&deep, 257 * 8));
    for (at = 0; at < 257; at++, count += 8)
        memcpy(deep.at + count, "ifdef A\n", 8);
    CHECK(mkedit_run(deep.at, count - 8, "", 0, 1, &out, &report, NULL) == MKEDIT_DONE && out.length == count - 8);
    CHECK(mkedit_run(deep.at, count, "", 0, 1, &out, &report, NULL) == MKEDIT_TOO_DEEP && out.length == count - 8);
    CHECK(mkedit_list(MKEDIT_CHECK, deep.at, count, "", 0, &out) == MKEDIT_TOO_DEEP && out.length == count - 8);
    mkedit_free(&out);
    mkedit_free(&report);
    mkedit_free(&deep);
    CHECK(held == 0);
}

/* Each allocation fails in its turn: the answer is its own, nothing is written, and no block is left. */
static void test_memory(void)
{
    uint32_t answer = MKEDIT_NO_MEMORY;
    long count, least = 3;
    for (count = 0; answer != MKEDIT_DONE; count++) {
        struct mkedit_bytes out = {0}, report = {0};
        granted = count;
        answer = run(TEXT, SCRIPT, 100, &out, &report, NULL);
        granted = -1;
        CHECK(answer == MKEDIT_DONE ? is(&out, EDITED) : answer == MKEDIT_NO_MEMORY && out.length == 0);
        mkedit_free(&out);
        mkedit_free(&report);
        CHECK(held == 0);
    }
    CHECK(count > least);
    for (answer = MKEDIT_NO_MEMORY, count = 0; answer != MKEDIT_DONE; count++) {
        struct mkedit_bytes out = {0};
        granted = count;
        answer = mkedit_list(MKEDIT_VARS, TEXT, strlen(TEXT), "M", 1, &out);
        if (answer == MKEDIT_DONE && granted >= 0)
            answer = mkedit_diff(TEXT, strlen(TEXT), EDITED, strlen(EDITED), "M", 1, &out);
        granted = -1;
        CHECK(answer == MKEDIT_DONE || answer == MKEDIT_NO_MEMORY);
        mkedit_free(&out);
        CHECK(held == 0);
    }
    CHECK(count > least);
}

/* Random texts of pieces that mean something. A call writes just what it says that it writes. */
static void test_random(unsigned seed, int calls)
{
    static const char *pieces[] = {"CC", " = ", "\n", "\t", "all", ":", "set ", "undo", "\\\n", "ifdef A\n", "endif\n",
                                   "#", "$(X)", "\"", "recipe ", "1 ", "\r\n", "define D\n", "rename ", "\xff",
                                   "all ", "try "};
    for (; calls > 0; calls--) {
        char texts[2][600] = {"", ""};
        unsigned char out[600], report[40];
        struct mkedit_told told;
        size_t size = 0, room = rand_r(&seed) % 600;
        uint32_t answer;
        int at;
        for (at = rand_r(&seed) % 60; at > 0; at--)
            strcat(texts[at % 2], pieces[rand_r(&seed) % (sizeof pieces / sizeof *pieces)]);
        memset(out, '~', sizeof out);
        memset(report, '~', sizeof report);
        answer = mkedit_run_into((unsigned char *)texts[0], strlen(texts[0]), (unsigned char *)texts[1],
                                 strlen(texts[1]), 1 + rand_r(&seed) % 3, out, room, report, 39, &told);
        CHECK(answer <= MKEDIT_NO_ROOM && answer != MKEDIT_NO_MEMORY && answer != MKEDIT_TOO_LONG);
        CHECK(answer == MKEDIT_DONE ? told.text <= room : out[0] == '~');
        CHECK(answer == MKEDIT_REFUSED ? report[told.report - 1] == '\n' : report[0] == '~');
        CHECK(out[answer == MKEDIT_DONE ? told.text : 0] == '~' && report[39] == '~');
        memset(out, '~', sizeof out);
        answer = mkedit_list_into(rand_r(&seed) % 5, (unsigned char *)texts[0], strlen(texts[0]), report, 1, out,
                                  room, &size);
        CHECK(answer == MKEDIT_DONE ? size <= room && out[size] == '~' : out[0] == '~');
        memset(out, '~', sizeof out);
        answer = mkedit_diff_into((unsigned char *)texts[0], strlen(texts[0]), (unsigned char *)texts[1],
                                  strlen(texts[1]), report, 1, out, room, &size);
        CHECK(answer == MKEDIT_DONE ? size <= room && out[size] == '~' : answer == MKEDIT_NO_ROOM && out[0] == '~');
    }
}

static void *in_a_thread(void *seed)
{
    struct mkedit_bytes out = {0}, report = {0};
    int count;
    for (count = 0; count < 300; count++)
        CHECK(run(TEXT, SCRIPT, 100, &out, &report, NULL) == MKEDIT_DONE && is(&out, EDITED));
    mkedit_free(&out);
    mkedit_free(&report);
    test_random(*(unsigned *)seed, 300);
    return NULL;
}

int main(int count, char **words)
{
    pthread_t threads[4];
    unsigned seeds[4] = {1, 2, 3, 4}, at;
    test_runs();
    test_limits();
    test_memory();
    test_random(5, count > 1 ? atoi(words[1]) : 1000);
    for (at = 0; at < 4; at++)
        CHECK(pthread_create(&threads[at], NULL, in_a_thread, &seeds[at]) == 0);
    for (at = 0; at < 4; at++)
        CHECK(pthread_join(threads[at], NULL) == 0);
    return 0;
}
