/* The lines of standard input, for the programs in this folder. */
#ifndef LINES_H
#define LINES_H

#include <stddef.h>
#include <stdint.h>
#include <stdio.h>
#include <stdlib.h>
#include <string.h>

typedef struct {
    const uint8_t *bytes;
    size_t length;
} line;

typedef struct {
    line *at;
    size_t count;
    uint8_t *input;
} lines;

/* Ends the program with status 1. */
static _Noreturn inline void stop(const char *why) {
    fflush(stdout);
    fprintf(stderr, "%s\n", why);
    exit(1);
}

static inline void *grown(void *block, size_t size) {
    void *larger = realloc(block, size);
    if (!larger) stop("no memory");
    return larger;
}

/* All bytes of a file. */
static inline uint8_t *read_all(FILE *file, size_t *length) {
    uint8_t *input = NULL;
    size_t room = 0, read;
    *length = 0;
    do {
        if (*length == room) input = grown(input, room = 2 * room + 65536);
        *length += read = fread(input + *length, 1, room - *length, file);
    } while (read > 0);
    if (ferror(file)) stop("a file cannot be read");
    return input;
}

/* All of standard input, cut at each newline (byte 10). */
static inline lines read_lines(void) {
    size_t length;
    uint8_t *input = read_all(stdin, &length);
    lines all = {NULL, 0, input};
    size_t places = 0;
    for (size_t from = 0; from < length;) {
        const uint8_t *end = memchr(input + from, '\n', length - from);
        size_t size = end ? (size_t)(end - input) - from : length - from;
        if (all.count == places) all.at = grown(all.at, (places = 2 * places + 64) * sizeof *all.at);
        all.at[all.count++] = (line){input + from, size};
        from += size + 1;
    }
    return all;
}

static inline void drop_lines(lines all) {
    free(all.at);
    free(all.input);
}

#endif
