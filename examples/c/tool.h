// What the three small programs share: standard input as bytes, and a call made with a buffer that its whole text fits.
#ifndef TOOL_H
#define TOOL_H

#include <stdio.h>
#include <stdlib.h>

#include "lwkt.h"

// Bytes with their number. There is always a byte behind them, so that no pointer to them is null.
typedef struct {
    uint8_t *bytes;
    size_t length;
} tool_text;

static void tool_fail(const char *why) {
    fprintf(stderr, "%s\n", why);
    exit(3);
}

static uint8_t *tool_room(uint8_t *bytes, size_t size) {
    uint8_t *room = realloc(bytes, size + 1);
    if (room == NULL) tool_fail("no memory");
    return room;
}

// All of standard input.
static tool_text tool_read(void) {
    size_t size = 4096, count;
    tool_text text = {tool_room(NULL, size), 0};
    while ((count = fread(text.bytes + text.length, 1, size - text.length, stdin)) > 0) {
        text.length += count;
        if (text.length == size) text.bytes = tool_room(text.bytes, size *= 2);
    }
    if (ferror(stdin)) tool_fail("standard input can't be read");
    return text;
}

// Writes a text and ends with a status.
static int tool_end(tool_text text, uint32_t status) {
    if (fwrite(text.bytes, 1, text.length, stdout) != text.length || fflush(stdout) != 0) tool_fail("standard output can't be written");
    free(text.bytes);
    return (int)status;
}

// Makes CALL, in which `text.bytes, room, &answer` are the last arguments, with a small buffer, and once more where its text is longer.
#define TOOL_CALL(text, status, CALL)                                \
    do {                                                             \
        lwkt_answer answer = {0, 0, 0};                              \
        size_t room = 256;                                           \
        text.bytes = tool_room(NULL, room);                          \
        status = CALL;                                               \
        if (answer.length > room) {                                  \
            room = answer.length;                                    \
            text.bytes = tool_room(text.bytes, room);                \
            status = CALL;                                           \
        }                                                            \
        text.length = answer.length <= room ? answer.length : room;  \
    } while (0)

#endif
