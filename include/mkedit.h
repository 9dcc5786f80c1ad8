/* mkedit.h: edits makefiles, and keeps every byte that no edit concerns.
 *
 * Link with -lmkedit; pkg-config knows it as mkedit. Scripts, reports and lists are those of the program
 * (docs/EDITS.md).
 *
 * Memory. The caller owns each byte that a call reads or writes, before, during and after the call, and the
 * library keeps no pointer. What a call takes for its own work, by malloc, it gives up before it returns.
 * A buffer that a call writes may not overlap anything else that the call is handed.
 *
 * Threads. The library has no state: calls in several threads, each with buffers and a report of its own,
 * have no part in each other. A text that no call writes may be read by several calls at once. malloc,
 * realloc and free have to be one allocator that threads may use. No call is made from a signal handler.
 *
 * Texts. A text is a pointer and a number of bytes. It needs no NUL at its end, and may have some within.
 * If the number is 0, the pointer may be null. More than MKEDIT_MAX_TEXT bytes are too long, and none of
 * them is read then.
 */
#ifndef MKEDIT_H
#define MKEDIT_H

#include <stddef.h>
#include <stdint.h>
#include <stdlib.h>

#ifdef __cplusplus
extern "C" {
#endif

#define MKEDIT_VERSION 100 /* 0.1.0; 10203 would be 1.2.3 */
#define MKEDIT_MAX_TEXT 16777216u
#define MKEDIT_MAX_DEPTH 10000u

/* What a call answers. In brackets the status with which the program would end. */
enum mkedit_answer {
    MKEDIT_DONE = 0,          /* it is done (0) */
    MKEDIT_REFUSED = 1,       /* a command of the script was refused: the report says which, and why (1) */
    MKEDIT_NOT_A_COMMAND = 2, /* a line of the script is no command (2) */
    MKEDIT_BAD_DEPTH = 3,     /* the depth is not from 1 to MKEDIT_MAX_DEPTH (2) */
    MKEDIT_TOO_LONG = 4,      /* a text has, or would have, more than MKEDIT_MAX_TEXT bytes (3) */
    MKEDIT_TOO_DEEP = 5,      /* more than 256 conditionals of the makefile are open at once (3) */
    MKEDIT_NO_MEMORY = 6,     /* memory ended (3) */
    MKEDIT_NO_ROOM = 7,       /* a buffer has too few bytes; only calls that end in _into answer this */
    MKEDIT_NO_SUCH_LIST = 8   /* there is no list of this number */
};

/* What a makefile can be asked for. */
enum mkedit_list {
    MKEDIT_VARS = 0,    /* its assignments */
    MKEDIT_RULES = 1,   /* its rules */
    MKEDIT_RECIPES = 2, /* its recipe lines */
    MKEDIT_CHECK = 3    /* the lines that are kept and not parsed */
};

/* Bytes that a call answers: `length` of them at `at`, which has memory for `room`. One is empty before its
 * first use, as `struct mkedit_bytes text = {0};`, and may be used again. mkedit_free gives its memory up,
 * which is malloc's. */
struct mkedit_bytes {
    unsigned char *at;
    size_t length;
    size_t room;
};

/* What a run tells besides its answer. */
struct mkedit_told {
    size_t text;   /* how many bytes the text has; 0 if none goes out */
    size_t report; /* how many bytes the report has */
    uint64_t line; /* the script's line, from 1, that is no command; otherwise 0 */
};

/* The version of the library that is linked, as MKEDIT_VERSION has that of this header. */
uint32_t mkedit_version(void);

/* The calls of the library itself. They write into buffers of the caller, each a pointer and its number of
 * bytes, and take no null pointer, also where the number is 0. Only if the answer is MKEDIT_DONE the first
 * bytes of `out` are written; only if it is MKEDIT_REFUSED those of `report`. `told` or `size` has how many
 * bytes there are, also if the answer is MKEDIT_NO_ROOM. */
uint32_t mkedit_run_into(const unsigned char *text, size_t text_length, const unsigned char *script,
                         size_t script_length, uint32_t depth, unsigned char *out, size_t out_room,
                         unsigned char *report, size_t report_room, struct mkedit_told *told);
uint32_t mkedit_diff_into(const unsigned char *old_text, size_t old_length, const unsigned char *new_text,
                          size_t new_length, const unsigned char *name, size_t name_length,
                          unsigned char *out, size_t out_room, size_t *size);
uint32_t mkedit_list_into(uint32_t list, const unsigned char *text, size_t text_length,
                          const unsigned char *name, size_t name_length, unsigned char *out,
                          size_t out_room, size_t *size);

/* Gives up the memory of some bytes, which are empty then. */
static inline void mkedit_free(struct mkedit_bytes *bytes)
{
    free(bytes->at);
    bytes->at = NULL;
    bytes->length = bytes->room = 0;
}

/* Has memory for so many bytes; 0 if there is none, and nothing has changed then. */
static inline int mkedit_reserve(struct mkedit_bytes *bytes, size_t room)
{
    unsigned char *at = bytes->at;
    if (at != NULL && room <= bytes->room)
        return 1;
    room = room > 0 ? room : 1;
    at = (unsigned char *)realloc(at, room);
    if (at == NULL)
        return 0;
    bytes->at = at;
    bytes->room = room;
    return 1;
}

/* The start of a text, which is not null. */
static inline const unsigned char *mkedit_start(const void *text)
{
    return (const unsigned char *)(text != NULL ? text : "");
}

/* Runs a script over a makefile. `depth` is how many edits `undo` can take back. The first command that is
 * refused ends the run.
 *
 * If the answer is MKEDIT_DONE, `out` has the text after the commands; if it is MKEDIT_REFUSED, `report` has
 * the line on the refusal, such as "3: refused 4 NoSuch\n"; otherwise both are as they were, except for more
 * room. `line` gets the number of the script's line, from 1, that is no command, if the answer is
 * MKEDIT_NOT_A_COMMAND; it may be null. Neither text may lie in `out` or `report`. */
static inline uint32_t mkedit_run(const void *text, size_t text_length, const void *script,
                                  size_t script_length, uint32_t depth, struct mkedit_bytes *out,
                                  struct mkedit_bytes *report, uint64_t *line)
{
    struct mkedit_told told = {0, 64, 0};
    uint32_t answer;
    if (text_length > MKEDIT_MAX_TEXT || script_length > MKEDIT_MAX_TEXT)
        return MKEDIT_TOO_LONG;
    told.text = text_length + script_length; /* mostly enough, so that the script runs once */
    do {
        if (!mkedit_reserve(out, told.text) || !mkedit_reserve(report, told.report))
            return MKEDIT_NO_MEMORY;
        answer = mkedit_run_into(mkedit_start(text), text_length, mkedit_start(script), script_length, depth,
                                 out->at, out->room, report->at, report->room, &told);
    } while (answer == MKEDIT_NO_ROOM);
    if (answer == MKEDIT_DONE)
        out->length = told.text;
    if (answer == MKEDIT_REFUSED)
        report->length = told.report;
    if (answer == MKEDIT_NOT_A_COMMAND && line != NULL)
        *line = told.line;
    return answer;
}

/* The unified diff of two texts under the name of a file, as patch -p1 takes it; no bytes if they are the
 * same. `out` is written only if the answer is MKEDIT_DONE; the others are MKEDIT_TOO_LONG and
 * MKEDIT_NO_MEMORY. */
static inline uint32_t mkedit_diff(const void *old_text, size_t old_length, const void *new_text,
                                   size_t new_length, const void *name, size_t name_length,
                                   struct mkedit_bytes *out)
{
    size_t size = 4096;
    uint32_t answer;
    if (old_length > MKEDIT_MAX_TEXT || new_length > MKEDIT_MAX_TEXT || name_length > MKEDIT_MAX_TEXT)
        return MKEDIT_TOO_LONG;
    do {
        if (!mkedit_reserve(out, size))
            return MKEDIT_NO_MEMORY;
        answer = mkedit_diff_into(mkedit_start(old_text), old_length, mkedit_start(new_text), new_length,
                                  mkedit_start(name), name_length, out->at, out->room, &size);
    } while (answer == MKEDIT_NO_ROOM);
    if (answer == MKEDIT_DONE)
        out->length = size;
    return answer;
}

/* What a makefile has, as lines of JSON (docs/EDITS.md, "Lines of JSON"), in which the member `file` is this
 * name. `out` is written only if the answer is MKEDIT_DONE; the others are MKEDIT_TOO_LONG, MKEDIT_TOO_DEEP,
 * MKEDIT_NO_MEMORY and MKEDIT_NO_SUCH_LIST. */
static inline uint32_t mkedit_list(enum mkedit_list list, const void *text, size_t text_length,
                                   const void *name, size_t name_length, struct mkedit_bytes *out)
{
    size_t size = 4096;
    uint32_t answer;
    if (text_length > MKEDIT_MAX_TEXT || name_length > MKEDIT_MAX_TEXT)
        return MKEDIT_TOO_LONG;
    do {
        if (!mkedit_reserve(out, size))
            return MKEDIT_NO_MEMORY;
        answer = mkedit_list_into((uint32_t)list, mkedit_start(text), text_length, mkedit_start(name),
                                  name_length, out->at, out->room, &size);
    } while (answer == MKEDIT_NO_ROOM);
    if (answer == MKEDIT_DONE)
        out->length = size;
    return answer;
}

#ifdef __cplusplus
}
#endif
#endif
