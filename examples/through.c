/* The three commands of the program through the library: audit LEVELS ANSWERS, make LEVELS, dead LEVELS N. Prints what the program
   prints and ends with its status, or with 3 if a call wrote more than its text. The first buffer is small, so that a longer text
   takes a second call. With ROOM=N in the environment the buffer has room for N bytes, there is one call, and the beginning that
   fits is printed, then the length of the whole text. An audit is also made in numbers, with room for half of the levels: the status
   is 3 unless these numbers count the same levels and nothing after the room is written. Only the library allocates memory.
   At the top of a checkout, after 'make lib':
   cc -I out/lib examples/through.c out/lib/libsokoaudit.a -o through && ./through audit samples/first.xsb samples/first.answers */
#define _POSIX_C_SOURCE 200809L
#include <fcntl.h>
#include <stdio.h>
#include <stdlib.h>
#include <string.h>
#include <unistd.h>
#include "sokoaudit.h"

#define LONGEST SOKOAUDIT_MOST_BYTES

static uint8_t levels[LONGEST + 1], answers[LONGEST + 1], buffer[2 * LONGEST];
static struct sokoaudit_line lines[SOKOAUDIT_MOST_LEVELS + 1];

/* reads a file, up to one byte more than a text may have; returns the number of bytes */
static size_t read_file(const char *name, const char *which, uint8_t *text) {
    size_t length = 0;
    ssize_t got = 1;
    int file = open(name, O_RDONLY);
    while (file >= 0 && got > 0 && length <= LONGEST) {
        got = read(file, text + length, LONGEST + 1 - length);
        if (got > 0) length += (size_t)got;
    }
    if (file < 0 || got < 0) {
        dprintf(2, "cannot read %s\n", which);
        exit(2);
    }
    close(file);
    return length;
}

static void print(const uint8_t *text, size_t length) {
    while (length > 0) {
        ssize_t wrote = write(1, text, length);
        if (wrote <= 0) exit(2);
        text += wrote;
        length -= (size_t)wrote;
    }
}

/* whether a call left everything after its text unchanged, and set no number of the outcome but a fault */
static int is_sound(uint32_t status, const struct sokoaudit_outcome *it, size_t room) {
    size_t at = status == SOKOAUDIT_FAULT ? 0 : it->bytes < room ? it->bytes : room;
    for (; at <= room; at++)
        if (buffer[at] != '~') return 0;
    return status != SOKOAUDIT_FAULT ||
           !(it->bytes | it->levels | it->solved | it->unsolvable | it->refused | it->missing | it->records);
}

/* the same audit in numbers; returns its status, or 3 */
static uint32_t audit_lines(size_t levels_length, size_t answers_length, struct sokoaudit_outcome *it) {
    struct sokoaudit_outcome numbers;
    size_t room = it->levels / 2, solved = 0;
    uint32_t status;
    memset(lines, '~', sizeof lines);
    status = sokoaudit_lines(levels, levels_length, answers, answers_length, lines, room, &numbers);
    if (status == SOKOAUDIT_FAULT) {
        *it = numbers;
        return lines[0].status == lines[room].status ? status : 3;
    }
    for (size_t i = 0; i < room; i++) solved += lines[i].status == SOKOAUDIT_SOLVED;
    numbers.bytes = it->bytes;
    return memcmp(&numbers, it, sizeof numbers) || solved > it->solved || (lines[room].status & 255) != '~' ? 3 : status;
}

int main(int count, char **words) {
    const char *given = getenv("ROOM");
    size_t room = given ? strtoul(given, NULL, 10) : 64, levels_length, answers_length = 0;
    struct sokoaudit_outcome outcome;
    uint32_t status;
    int is_audit = count > 1 && !strcmp(words[1], "audit"), is_make = count > 1 && !strcmp(words[1], "make");
    if (count != (is_make ? 3 : 4)) return 2;
    levels_length = read_file(words[2], "levels", levels);
    if (is_audit) answers_length = read_file(words[3], "answers", answers);
    for (;; room = outcome.bytes) {
        if (room >= sizeof buffer) return 3;
        memset(buffer, '~', room + 1);
        memset(&outcome, '~', sizeof outcome);
        if (is_audit)
            status = sokoaudit_audit(levels, levels_length, answers, answers_length, buffer, room, &outcome);
        else if (is_make)
            status = sokoaudit_make(levels, levels_length, buffer, room, &outcome);
        else
            status = sokoaudit_dead(levels, levels_length, strtoul(words[3], NULL, 10), buffer, room, &outcome);
        if (!is_sound(status, &outcome, room)) return 3;
        if (given || outcome.bytes <= room) break;
    }
    if (is_audit && status != SOKOAUDIT_FAULT) status = audit_lines(levels_length, answers_length, &outcome);
    if (status == 3) return 3;
    if (status == SOKOAUDIT_FAULT) {
        uint8_t fault[64];
        size_t length = sokoaudit_fault_text(&outcome, fault, sizeof fault);
        dprintf(2, "%.*s\n", (int)length, (const char *)fault);
    } else {
        print(buffer, outcome.bytes < room ? outcome.bytes : room);
        if (outcome.bytes > room) dprintf(1, "\n%zu bytes\n", outcome.bytes);
    }
    return (int)status;
}
