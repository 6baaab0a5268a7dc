/* Optimises each file that is named: cc example.c librhai_c.a liblibc_c.a -o example; ./example greet.rhai */
#include "balvuzsom.h"

#include <inttypes.h>
#include <stdio.h>
#include <stdlib.h>

/* The bytes of a file, or NULL. */
static uint8_t *bytes_of(const char *name, size_t *length) {
    FILE *file = fopen(name, "rb");
    if (file == NULL) {
        return NULL;
    }
    uint8_t *bytes = NULL;
    size_t room = 0;
    *length = 0;
    do {
        room += 1 << 16;
        uint8_t *grown = realloc(bytes, room);
        if (grown == NULL) {
            free(bytes);
            bytes = NULL;
            break;
        }
        bytes = grown;
        *length += fread(bytes + *length, 1, room - *length, file);
    } while (*length == room);
    fclose(file);
    return bytes;
}

/* Prints what a script becomes, or why it becomes nothing: 0 or 1. */
static int optimize(const char *name, const uint8_t *source, size_t length) {
    struct balvuzsom_options options = BALVUZSOM_OPTIONS;
    struct balvuzsom_refusal refusal;
    const uint8_t known[] = "const DEBUG = false;";
    size_t room_length = length + 1024;
    for (;;) {
        uint8_t *room = malloc(room_length);
        if (room == NULL) {
            return 1;
        }
        int64_t said = balvuzsom_optimize(source, length, known, sizeof known - 1, &options, room, room_length, &refusal);
        if (said > (int64_t)room_length) {
            free(room);
            room_length = (size_t)said;
            continue;
        }
        if (said >= 0) {
            fwrite(room, 1, (size_t)said, stdout);
        } else {
            size_t shown = refusal.length < room_length ? (size_t)refusal.length : room_length;
            fprintf(stderr, "%s:%" PRIu32 ":%" PRIu32 ": %.*s\n", name, refusal.line, refusal.column, (int)shown, room);
        }
        free(room);
        return said < 0;
    }
}

int main(int count, char **words) {
    int status = 0;
    for (int at = 1; at < count; at++) {
        size_t length;
        uint8_t *source = bytes_of(words[at], &length);
        if (source == NULL) {
            fprintf(stderr, "%s: cannot be read\n", words[at]);
            status = 2;
            continue;
        }
        status |= optimize(words[at], source, length);
        free(source);
    }
    return status;
}
