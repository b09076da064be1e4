/* A search that checks its own table. It tries all moves of two boxes of a level, with the others taken away. If the two can't both
   reach goals, its table is a certificate for the level, and sokoaudit_judge says whether anything is missing from it.
   At the top of a checkout, after 'make lib':
   cc -I out/lib examples/search.c out/lib/libsokoaudit.a -o search && ./search */
#include <stdio.h>
#include <string.h>
#include "sokoaudit.h"

#define BOXES 2
#define MOST 1000 /* positions */

static const char level[] =
    "##########\n"
    "#@$ $ ..##\n"
    "###### ###\n"
    "#.   $   #\n"
    "##########\n";
static const int width = 11; /* of a row with its line end */

struct position { int player, box[BOXES]; };
static struct position table[MOST];
static int positions;

static int box_on(const struct position *p, int cell) {
    for (int i = 0; i < BOXES; i++)
        if (p->box[i] == cell) return i;
    return -1;
}

/* adds a position that the table doesn't have; a pattern names its boxes in reading order */
static void add(struct position p) {
    if (p.box[0] > p.box[1]) {
        int first = p.box[1];
        p.box[1] = p.box[0];
        p.box[0] = first;
    }
    for (int i = 0; i < positions; i++)
        if (!memcmp(&table[i], &p, sizeof p)) return;
    if (positions < MOST) table[positions++] = p;
}

/* adds the positions that one step of the player leads to */
static void expand(struct position p) {
    const int steps[] = {-1, -width, 1, width};
    for (int i = 0; i < 4; i++) {
        struct position next = p;
        int to = p.player + steps[i], box = box_on(&p, to);
        if (level[to] == '#') continue;
        if (box >= 0) {
            if (level[to + steps[i]] == '#' || box_on(&p, to + steps[i]) >= 0) continue;
            next.box[box] = to + steps[i];
        }
        next.player = to;
        add(next);
    }
}

int main(void) {
    static char list[MOST * 40];
    size_t length = 0;
    struct position start = {0, {0, 0}};
    struct sokoaudit_line line;
    for (int cell = 0, i = 0; level[cell]; cell++) {
        if (level[cell] == '@') start.player = cell;
        if (level[cell] == '$' && i < BOXES) start.box[i++] = cell;
    }
    add(start);
    for (int i = 0; i < positions; i++) {
        const struct position *p = &table[i];
        if (level[p->box[0]] == '.' && level[p->box[1]] == '.') {
            puts("these boxes can reach goals");
            return 1;
        }
        length += (size_t)sprintf(list + length, "pattern %d,%d %d,%d @ %d,%d\n", p->box[0] % width + 1, p->box[0] / width + 1,
                                  p->box[1] % width + 1, p->box[1] / width + 1, p->player % width + 1, p->player / width + 1);
        expand(table[i]);
    }
    if (sokoaudit_judge((const uint8_t *)level, strlen(level), SOKOAUDIT_CERTIFICATE, (const uint8_t *)list, length, &line)) return 2;
    if (line.status == SOKOAUDIT_UNSOLVABLE_PATTERNS)
        printf("unsolvable, by a list of %d positions\n", (int)line.patterns);
    else
        printf("status %d at line %d of the list:\n%s", (int)line.status, (int)line.line, list);
    return line.status != SOKOAUDIT_UNSOLVABLE_PATTERNS;
}
