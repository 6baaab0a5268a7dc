/* Measures what calls take of the stack, in nests of each kind as deep as they are read, in values and in calls within
 * calls: each works on a stack that is painted before. It prints what a level takes, and how many figures are at most half
 * of what balvuzsom.h says. */
#include "balvuzsom.h"

#include <inttypes.h>
#include <pthread.h>
#include <stdio.h>
#include <stdlib.h>
#include <string.h>
#include <sys/mman.h>

typedef int64_t (*call)(const uint8_t *, size_t, const uint8_t *, size_t, const struct balvuzsom_options *, uint8_t *,
                        size_t, struct balvuzsom_refusal *);

struct work {
    call asked;
    const char *text;
    struct balvuzsom_options options;
    int64_t code;
};

#define LEVELS 1000 /* that are read at most; a step of a nest may take several */
#define STACK ((size_t)512 << 20)
#define PAINT 0x5a
static unsigned char *stack;

/* Makes the call, with no second text. */
static void *make(void *given) {
    struct work *work = given;
    struct balvuzsom_refusal refusal;
    static uint8_t room[1 << 16];
    const uint8_t *text = (const uint8_t *)work->text;
    work->code = work->asked(text, strlen(work->text), text, 0, &work->options, room, sizeof room, &refusal);
    return NULL;
}

/* How many bytes of the stack a call takes, of which at most so many are painted. */
static size_t taken(struct work *work, size_t most) {
    pthread_t thread;
    pthread_attr_t made;
    memset(stack + STACK - most, PAINT, most);
    pthread_attr_init(&made);
    pthread_attr_setstack(&made, stack, STACK);
    if (pthread_create(&thread, &made, make, work) != 0 || pthread_join(thread, NULL) != 0) {
        abort();
    }
    pthread_attr_destroy(&made);
    size_t at = STACK - most;
    while (at < STACK && stack[at] == PAINT) {
        at++;
    }
    return STACK - at;
}

static unsigned passed, failed;

/* Prints what each of so many takes, and counts it where it is at most half of what is allowed. */
static void count(const char *what, const char *kind, size_t bytes, size_t number, size_t allowed) {
    size_t each = number > 0 ? bytes / number : bytes;
    int is_well = number > 0 && each <= allowed / 2;
    printf("%s %s: %zu bytes for each of %zu%s\n", what, kind, each, number, is_well ? "" : ", NOT AS WANTED");
    passed += is_well;
    failed += !is_well;
}

static const char *const NESTS[][3] = {
    {"[", "a", "]"},          {"(", "a", ")"},         {"#{a: ", "a", "}"},     {"{ ", "a", " }"},
    {"f(", "a", ")"},         {"a[", "1", "]"},        {"a.b(", "1", ")"},      {"a.", "b", ""},
    {"- ", "a", ""},          {"!", "a", ""},          {"1 + ", "a", ""},       {"1 + (", "a", ")"},
    {"a && (", "b", ")"},     {"`${", "a", "}`"},      {"|| ", "1", ""},        {"if a { ", "b", " }"},
    {"while a { ", "b", " }"}, {"if a { b } else ", "{ c }", ""}, {"switch a { 1 => ", "2", " }"}, {"try { ", "a", " } catch { }"},
};

/* A nest of so many levels, between two texts. */
static char *nested(const char *before, const char *const nest[3], size_t levels, const char *behind) {
    size_t each = strlen(nest[0]) + strlen(nest[2]);
    char *text = malloc(strlen(before) + each * levels + strlen(nest[1]) + strlen(behind) + 1), *end = text;
    if (text == NULL) {
        abort();
    }
    end += sprintf(end, "%s", before);
    for (size_t at = 0; at < levels; at++) {
        end += sprintf(end, "%s", nest[0]);
    }
    end += sprintf(end, "%s", nest[1]);
    for (size_t at = 0; at < levels; at++) {
        end += sprintf(end, "%s", nest[2]);
    }
    sprintf(end, "%s", behind);
    return text;
}

static struct work work_of(call asked, const char *text, uint64_t turns) {
    struct work work = {asked, text, BALVUZSOM_OPTIONS, 0};
    work.options.max_expr_depth = work.options.max_function_expr_depth = 0;
    work.options.turns = turns;
    return work;
}

/* Makes a call with a nest of so many levels; whether it is read, and how many bytes of the stack it takes. */
static int is_read(call asked, const char *const nest[3], size_t levels, size_t painted, size_t *bytes) {
    char *text = nested("", nest, levels, "");
    struct work work = work_of(asked, text, 1000);
    *bytes = taken(&work, painted);
    free(text);
    return work.code != BALVUZSOM_NO_SCRIPT;
}

/* How many levels of a nest are read at most, and how many bytes of the stack the call takes then. */
static size_t deepest(call asked, const char *const nest[3], size_t *bytes) {
    size_t least = 0, most = LEVELS + 1;
    while (most - least > 1) {
        size_t middle = (least + most) / 2;
        if (is_read(asked, nest, middle, 0, bytes)) {
            least = middle;
        } else {
            most = middle;
        }
    }
    is_read(asked, nest, least, (size_t)24 << 20, bytes);
    return least;
}

static void texts(call asked, const char *what) {
    for (size_t at = 0; at < sizeof NESTS / sizeof *NESTS; at++) {
        size_t bytes = 0, levels = deepest(asked, NESTS[at], &bytes);
        count(what, NESTS[at][0], bytes, levels > 0 ? LEVELS : 0, 16 << 10);
    }
}

/* What a run takes for each of so many turns. */
static void runs(const char *kind, const char *text, size_t turns, size_t levels, size_t allowed) {
    struct work work = work_of(balvuzsom_run, text, turns);
    count("run", kind, taken(&work, STACK / 2), turns * levels, allowed);
}

int main(void) {
    stack = mmap(NULL, STACK, PROT_READ | PROT_WRITE, MAP_PRIVATE | MAP_ANONYMOUS | MAP_NORESERVE, -1, 0);
    if (stack == MAP_FAILED) {
        return 2;
    }
    texts(balvuzsom_optimize, "optimize");
    texts(balvuzsom_check, "check");
    texts(balvuzsom_run, "run");
    runs("values", "let a = []; loop { a = [[[[[[[[[[a]]]]]]]]]]; }", 2000, 10, 4 << 10);
    runs("calls", "fn f(n) { f(n + 1) } f(0)", 2000, 1, 32 << 10);
    const char *body[] = {"[", "f(n)", "]"};
    char *text = nested("fn f(n) { ", body, 400, " } f(0)");
    runs("calls in bodies", text, 50, 400, 4 << 10);
    free(text);
    printf("%u passed, %u failed\n", passed, failed);
    return failed != 0;
}
