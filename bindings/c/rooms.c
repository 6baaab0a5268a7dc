/* Asks each call with rooms of all lengths from 0 up, between two walls, and ten thousand times in a row; odd bytes and a
 * million brackets too. It prints how many answers were as wanted. What is held after many calls is counted exactly where
 * GLIBC_TUNABLES=glibc.malloc.tcache_count=0. */
#include "balvuzsom.h"

#include <malloc.h>
#include <pthread.h>
#include <stdio.h>
#include <stdlib.h>
#include <string.h>

typedef int64_t (*call)(const uint8_t *, size_t, const uint8_t *, size_t, const struct balvuzsom_options *, uint8_t *,
                        size_t, struct balvuzsom_refusal *);

static unsigned passed, failed;

static void want(int is_well, const char *what) {
    passed += is_well != 0;
    failed += is_well == 0;
    if (!is_well) {
        printf("not as wanted: %s\n", what);
    }
}

#define WALL 64

/* Whether a call with each room from 0 up writes a beginning of its answer there, and nothing around it. */
static int stays_in_room(call asked, const char *first, const char *second) {
    struct balvuzsom_options options = BALVUZSOM_OPTIONS;
    struct balvuzsom_refusal refusal;
    uint8_t whole[4096], room[4096 + 2 * WALL];
    const uint8_t *one = (const uint8_t *)first, *other = (const uint8_t *)second;
    int64_t code = asked(one, strlen(first), other, strlen(second), &options, whole, sizeof whole, &refusal);
    size_t length = (size_t)(code < 0 ? (int64_t)refusal.length : code);
    if (length > sizeof whole) {
        return 0;
    }
    for (size_t size = 0; size <= length + 8; size++) {
        memset(room, 0x5a, sizeof room);
        if (asked(one, strlen(first), other, strlen(second), &options, room + WALL, size, &refusal) != code) {
            return 0;
        }
        size_t written = size < length ? size : length;
        if (memcmp(room + WALL, whole, written) != 0) {
            return 0;
        }
        for (size_t at = 0; at < sizeof room; at++) {
            if ((at < WALL || at >= WALL + written) && room[at] != 0x5a) {
                return 0;
            }
        }
    }
    return 1;
}

static int64_t code_of(const uint8_t *source, size_t length, struct balvuzsom_options options) {
    struct balvuzsom_refusal refusal;
    uint8_t room[16];
    return balvuzsom_optimize(source, length, source, 0, &options, room, sizeof room, &refusal);
}

/* Whether a call refuses the options, and gives the reason with this word, at no place. */
static int refuses(call asked, struct balvuzsom_options options, const char *word) {
    struct balvuzsom_refusal refusal = {7, 7, 7};
    uint8_t room[256] = {0}, none = 0;
    int64_t code = asked(&none, 0, &none, 0, &options, room, sizeof room - 1, &refusal);
    return code == BALVUZSOM_OPTIONS_REFUSED && refusal.line == 0 && refusal.column == 0 &&
           refusal.length == strlen((const char *)room) && strstr((const char *)room, word) != NULL;
}

/* Whether each call refuses options that are none. */
static int all_refuse(struct balvuzsom_options options, const char *word) {
    return refuses(balvuzsom_optimize, options, word) && refuses(balvuzsom_check, options, word) &&
           refuses(balvuzsom_run, options, word) && refuses(balvuzsom_merge, options, word);
}

/* Whether a run of a script reports this. */
static int reports(const char *source, const char *wanted) {
    struct balvuzsom_options options = BALVUZSOM_OPTIONS;
    struct balvuzsom_refusal refusal;
    uint8_t room[1024];
    const uint8_t *text = (const uint8_t *)source;
    int64_t length = balvuzsom_run(text, strlen(source), text, 0, &options, room, sizeof room, &refusal);
    return length == (int64_t)strlen(wanted) && memcmp(room, wanted, strlen(wanted)) == 0;
}

/* Scripts whose texts would be lines and parts of a report. */
static void forged_reports(void) {
    want(reports("print(\"a\\n\\tcall\\tboom\");\nthrow \"x\\nend\\tvalue\\t1\\x01\";",
                 "end\tthrown\t\"x\\nend\\tvalue\\t1\\u0001\"\nturns left\t1000\n"
                 "call\tprint\t\"a\\n\\tcall\\tboom\"\n"),
         "a report that no text forges");
    want(reports("let a = #{\"k\\n\": 'x'}; a.f([1, ()]); 1..3",
                 "end\tvalue\t1..3\nturns left\t1000\nvariable\ta\t#{\"k\\n\": 'x'}\n"
                 "method\tf\t#{\"k\\n\": 'x'}\t[1, ()]\n"),
         "a report of a method");
}

/* Whether a source is refused by a code, with rhai's bounds and with none. */
static int is_refused(const uint8_t *source, size_t length, int64_t code) {
    struct balvuzsom_options options = BALVUZSOM_OPTIONS, unbounded = BALVUZSOM_OPTIONS;
    unbounded.max_expr_depth = unbounded.max_function_expr_depth = 0;
    return code_of(source, length, options) == code && code_of(source, length, unbounded) == code;
}

static void odd_sources(void) {
    struct balvuzsom_options options = BALVUZSOM_OPTIONS;
    const uint8_t broken[] = {'1', 0xff, '2'}, zero[] = {'1', 0, '2'};
    want(is_refused(broken, sizeof broken, BALVUZSOM_NO_UTF8), "bytes that are no text");
    want(is_refused(zero, sizeof zero, BALVUZSOM_NO_SCRIPT), "a zero byte");
    size_t many = 1000000;
    uint8_t *brackets = malloc(many);
    if (brackets != NULL) {
        const char opening[] = "[({";
        for (size_t kind = 0; opening[kind] != 0; kind++) {
            memset(brackets, opening[kind], many);
            want(is_refused(brackets, many, BALVUZSOM_NO_SCRIPT), "a million brackets");
        }
        free(brackets);
    }
    options.size--;
    want(all_refuse(options, "48"), "options of another size");
    options.size++;
    options.level = 3;
    want(all_refuse(options, "level"), "a level that is none");
    options.level = 1;
    options.flags = 2;
    want(all_refuse(options, "flags"), "flags that are none");
}

static void many_calls(int times) {
    struct balvuzsom_options options = BALVUZSOM_OPTIONS;
    struct balvuzsom_refusal refusal;
    uint8_t room[256];
    const uint8_t source[] = "fn f(x) { x + 1 } let a = [1, 2, 3]; print(f(a[1]) + 2 * 3);";
    int64_t first = balvuzsom_optimize(source, sizeof source - 1, source, 0, &options, room, sizeof room, &refusal);
    int same = first > 0;
    size_t held = mallinfo2().uordblks;
    for (int at = 0; at < times; at++) {
        same &= balvuzsom_optimize(source, sizeof source - 1, source, 0, &options, room, sizeof room, &refusal) == first;
    }
    want(same, "many calls in a row");
    want(mallinfo2().uordblks == held, "many calls leave no memory behind");
}

/* Asks odd sources on a stack that is large enough for any. */
static void *ask_odd(void *nothing) {
    odd_sources();
    return nothing;
}

static int with_odd_sources(void) {
    pthread_t thread;
    pthread_attr_t made;
    pthread_attr_init(&made);
    pthread_attr_setstacksize(&made, (size_t)64 << 20);
    return pthread_create(&thread, &made, ask_odd, NULL) == 0 && pthread_join(thread, NULL) == 0;
}

int main(int count, char **words) {
    const char *script = "const A = 2 * 3;\nif A == 6 { print(A + 1); }\nfn f() { b }\n";
    want(stays_in_room(balvuzsom_optimize, script, ""), "optimize");
    want(stays_in_room(balvuzsom_optimize, script, "const B = 1;"), "optimize with a constant");
    want(stays_in_room(balvuzsom_optimize, script, "let B = 1;"), "optimize with no constant");
    want(stays_in_room(balvuzsom_optimize, "let = 1;", ""), "optimize no script");
    want(stays_in_room(balvuzsom_check, script, ""), "check");
    want(stays_in_room(balvuzsom_run, script, ""), "run");
    want(stays_in_room(balvuzsom_merge, script, script), "merge");
    want(with_odd_sources(), "a thread");
    forged_reports();
    many_calls(count > 1 ? atoi(words[1]) : 10000);
    printf("%u passed, %u failed\n", passed, failed);
    return failed != 0;
}
