/* Balvuzsom: scripts of the language Rhai, optimised, checked, run and merged. Each script that is made does what the
 * given one does, and that is proved (docs/PROMISES.md).
 *
 * What a caller owes, since nothing checks it:
 * - no pointer is null, nor is that of a text or a room whose length is 0; each is that of as many bytes as its length
 *   says, or of a whole struct, whatever its `size` says;
 * - a room and a refusal overlap nothing else that is passed; texts and options are only read and may overlap one
 *   another, and nobody changes them during the call;
 * - the stack has 1 MiB, and 16 KiB for each level that a text nests, up to the options' bound or 1000, or the value of a
 *   constant; in a run also 4 KiB for each level that a value nests, and for each function that is being called 32 KiB
 *   and 4 KiB for each level of its body. A run of many turns may so take any stack; bindings/rust/src/stack.rs counts
 *   the most that a call can take;
 * - `malloc`, `realloc` and `free` are those of one allocator; no call is made from a signal handler.
 * Calls keep no pointer and share nothing: they may be made from several threads at once. */
#ifndef BALVUZSOM_H
#define BALVUZSOM_H

#include <stddef.h>
#include <stdint.h>

#ifdef __cplusplus
extern "C" {
#endif

/* What a caller may choose. Each call refuses another size, level or flags by BALVUZSOM_OPTIONS_REFUSED, and says which. */
struct balvuzsom_options {
    uint64_t size;                    /* sizeof(struct balvuzsom_options), which is 48 */
    uint64_t turns;                   /* of a run: how many rounds of loops and calls of functions it has */
    uint32_t level;                   /* 0: nothing is optimised; 1 and 2: all is */
    uint32_t flags;                   /* BALVUZSOM_NOTATION or 0 */
    uint64_t max_expr_depth;          /* how deep a text may nest; 0 or above 1000: 1000 levels, the most */
    uint64_t max_function_expr_depth; /* the same within functions */
    uint64_t max_string_size;         /* how many bytes a literal text may have; 0: any number */
};

/* Texts are trees in print, and not in rhai's own syntax. */
#define BALVUZSOM_NOTATION 1

/* Rhai's own bounds. */
#define BALVUZSOM_OPTIONS \
    { sizeof(struct balvuzsom_options), 1000, 1, 0, 64, 32, 0 }

/* Why a call did not answer, and where in its text: from 1 on, 0 for nowhere. Of a call that answers all are 0. */
struct balvuzsom_refusal {
    uint32_t line;
    uint32_t column;
    uint64_t length; /* how many bytes the reason has */
};

/* What a call answers below 0: the first of these that it meets. It looks at the options first, and at a text's bytes
 * before it reads the text. `balvuzsom_optimize` looks at the source's bytes, then at all of `known`, and then reads
 * the source; `balvuzsom_check` and `balvuzsom_run` have read the source before they look at `known`;
 * `balvuzsom_merge` looks at the bytes of both before it reads either. */
enum balvuzsom_code {
    BALVUZSOM_OPTIONS_REFUSED = -1,   /* the size, the level or the flags, in this order, are none */
    BALVUZSOM_NO_UTF8 = -2,           /* bytes that are no text */
    BALVUZSOM_CONSTANTS_REFUSED = -3, /* `known` is no list of constants */
    BALVUZSOM_NO_SCRIPT = -4,         /* the source, or one of two that are merged, is no script */
    BALVUZSOM_NO_TEXT = -5,           /* optimised or merged: no text spells what comes of it */
    BALVUZSOM_OUT_OF_MEMORY = -6      /* any call but balvuzsom_version */
};

/* Each call answers how many bytes its text has, and the room begins with as many of them as it has place for; a longer
 * text is asked for again with more room. Below 0 it is a code, and the room begins so with the reason. What is cut off
 * may end within a letter; nothing ends in a zero byte. `known` declares constants that hold beforehand:
 * `const DEBUG = false; const LIMIT = 10;`. */

/* The script, optimised. */
int64_t balvuzsom_optimize(const uint8_t *source, size_t source_length, const uint8_t *known, size_t known_length,
                           const struct balvuzsom_options *options, uint8_t *room, size_t room_length,
                           struct balvuzsom_refusal *refusal);

/* What is wrong with the script, on a line each: LINE:COLUMN: TEXT, zeros for what stands nowhere. */
int64_t balvuzsom_check(const uint8_t *source, size_t source_length, const uint8_t *known, size_t known_length,
                        const struct balvuzsom_options *options, uint8_t *room, size_t room_length,
                        struct balvuzsom_refusal *refusal);

/* What a run of the script does, where each call of the host is answered by unit. Each line ends in '\n' and has parts with
 * '\t' between them:
 *
 *     end         value V, thrown V, stuck NUMBER NAME, or out of turns      the first line
 *     turns left  N                                                          the second
 *     variable    NAME V
 *     constant    NAME V
 *     export      NAME V
 *     call        NAME V..
 *     method      NAME V V..                                                 a call on the first value
 *
 * V is a value in print. Texts and keys of maps stand in it in quotes, and in these, as in names, '"', '\\', '\n', '\r',
 * '\t' and signs that control as \", \\, \n, \r, \t and \u00 with two digits: so nothing that a script says ends a part or
 * a line. A text in print is one of JSON. */
int64_t balvuzsom_run(const uint8_t *source, size_t source_length, const uint8_t *known, size_t known_length,
                      const struct balvuzsom_options *options, uint8_t *room, size_t room_length,
                      struct balvuzsom_refusal *refusal);

/* The second script behind the first, its functions in the place of those with the same name and parameters. */
int64_t balvuzsom_merge(const uint8_t *first, size_t first_length, const uint8_t *second, size_t second_length,
                        const struct balvuzsom_options *options, uint8_t *room, size_t room_length,
                        struct balvuzsom_refusal *refusal);

/* The version of the library. */
int64_t balvuzsom_version(uint8_t *room, size_t room_length, struct balvuzsom_refusal *refusal);

#ifdef __cplusplus
}
#endif

#endif
