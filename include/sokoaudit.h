/* sokoaudit as a library: audits of Sokoban levels and their answers, made answers, and maps of dead squares.
 *
 * sokoaudit_judge gives a verdict on one level with one solution or certificate, and sokoaudit_lines on each level of a collection,
 * both in numbers. sokoaudit_levels and sokoaudit_records say where levels and records are. The other calls write a text, which is the
 * program's, byte for byte. sokoaudit_audit, sokoaudit_lines, sokoaudit_make and sokoaudit_dead return the exit status that the program
 * 'sokoaudit' would have on files with these bytes.
 *
 *   Texts     A pointer to bytes and their number, without a zero at the end. They are read and never written. Cast a 'char *' to
 *             'const uint8_t *'.
 *   Buffers   A pointer to bytes that may be written, and their number, the space. If the text is longer than the space, its
 *             beginning fills the buffer, and 'bytes' of the outcome is the length of the whole text: call again with that space.
 *             Nothing after the text is written, and no zero is put at its end.
 *   Entries   A pointer to entries that may be written, and their number, the space. If there are more levels than space, the first
 *             ones are written, and 'levels' of the outcome is the number of all levels: call again with that space.
 *             SOKOAUDIT_MOST_LEVELS entries are always enough. Nothing after the entries is written. Neither entries nor the outcome
 *             need a value before the call.
 *   NULL      is neither a text nor a buffer, not even one of 0 bytes: pass "" or any other pointer there. The same holds for entries.
 *   Overlap   Buffers, entries and the outcome overlap neither each other nor a text. Two texts may overlap.
 *   Changes   While a call runs, nobody changes a text, and nobody reads or writes the buffer, the entries or the outcome.
 *   Where     Don't call from a signal handler, nor from the forked child of a process with several threads: a call uses malloc.
 *   Memory    No ownership passes: the caller owns what it passes, and no call keeps a pointer after it returns. What a call
 *             needs for itself it takes by malloc and frees.
 *   Threads   Calls may come from several threads at once, each with its own buffer and outcome. The library has no variable
 *             that is written, so calls share no state.
 *   System    Linux on x86-64 with glibc 2.34 or later, and a processor of x86-64-v2 (with POPCNT and SSE4.2). On an older processor the
 *             loader ends the program with status 127, or dlopen fails.
 *   Bytes     A byte order mark at the start of a level text is skipped; an answers text has none. Lines end with LF or CR LF. A zero
 *             byte is a byte like any other that no level or answer has.
 *   Levels    Lines with a wall '#' and no other characters than '@' player, '+' player on a goal, '$' box, '*' box on a goal, '.' goal,
 *             and ' ', '-' or '_' floor. Every other line, also an empty one, is text between levels.
 *   Answers   The line 'sokoban-answers 2'; then for each level with an answer, with rising N, the lines 'level N', 'solution' or
 *             'unsolvable', the body, and 'end'. The body of a solution is lines of letters. That of a certificate is lines such as
 *             'pattern 2,2 3,2 @ *' or 'pattern 2,2 @ 4,5 6,5' (boxes, then cells of the player, '*' for all that the player could reach
 *             without boxes), or one line such as 'zone 2,4 3,4'. A cell is its column and row, from 1; cells are in reading order.
 *             Under 'sokoban-answers 1' there are no zones. docs/formats.md has the rest, and docs/rules.md explains the verdicts. */
#ifndef SOKOAUDIT_H
#define SOKOAUDIT_H

#include <stddef.h>
#include <stdint.h>

#ifdef __cplusplus
extern "C" {
#endif

/* The version of the program and of this header, and the same as a number: 10000, 100 and 1 times its three parts. A version that ends in -dev
   has the number of the release that it becomes. */
#define SOKOAUDIT_VERSION "0.3.0-dev"
#define SOKOAUDIT_VERSION_NUMBER 300

/* The limits. */
#define SOKOAUDIT_MOST_BYTES 33554432 /* of a level text, and of an answers text, the lines around a body included */
#define SOKOAUDIT_MOST_LEVELS 10000   /* of a level text */
#define SOKOAUDIT_MOST_SIDE 255       /* columns and rows of a level; past it: SOKOAUDIT_WHY_SIZE */
#define SOKOAUDIT_MOST_PATTERNS 65536 /* of a list; past it: SOKOAUDIT_WHY_COUNT */
#define SOKOAUDIT_MOST_WORDS 64       /* bytes that sokoaudit_fault_text writes */

/* What the calls with an outcome return. sokoaudit_judge has none: it returns SOKOAUDIT_DONE or the number of a fault. */
#define SOKOAUDIT_DONE 0  /* the text or the entries are written; every level of an audit is solved or unsolvable */
#define SOKOAUDIT_OPEN 1  /* the text or the entries are written; some level of the audit is refused or missing */
#define SOKOAUDIT_FAULT 2 /* nothing is written but the outcome: its 'fault' says why */

/* The faults: 'fault' of an outcome, and what sokoaudit_judge returns. */
#define SOKOAUDIT_OUT_OF_MEMORY 1
#define SOKOAUDIT_LEVELS_TOO_LONG 2   /* the level text has more than 33,554,432 bytes */
#define SOKOAUDIT_ANSWERS_TOO_LONG 3  /* the same of the answers text; by sokoaudit_judge of the body with the lines around it */
#define SOKOAUDIT_TOO_MANY_LEVELS 4   /* more than 10,000; by sokoaudit_judge more than one */
#define SOKOAUDIT_ANSWERS_HEADER 5    /* the first line isn't 'sokoban-answers 1' or '2'; this fault and the next five are at 'line' */
#define SOKOAUDIT_ANSWERS_LEVEL 6     /* the line should be 'level' and a number */
#define SOKOAUDIT_ANSWERS_ORDER 7     /* the number of the level is not above the one before */
#define SOKOAUDIT_ANSWERS_UNKNOWN 8   /* there are fewer levels */
#define SOKOAUDIT_ANSWERS_KIND 9      /* the line should be 'solution' or 'unsolvable' */
#define SOKOAUDIT_ANSWERS_UNCLOSED 10 /* the text ends inside a record; 'line' is the one after the last */
#define SOKOAUDIT_NO_SUCH_LEVEL 11    /* by sokoaudit_dead; by sokoaudit_judge if the text has no level */
#define SOKOAUDIT_BOARD_SIZE 12       /* this fault and the next four: by sokoaudit_dead alone, as SOKOAUDIT_WHY_SIZE to _OPEN */
#define SOKOAUDIT_BOARD_PLAYER 13
#define SOKOAUDIT_BOARD_BOX 14
#define SOKOAUDIT_BOARD_GOALS 15
#define SOKOAUDIT_BOARD_OPEN 16
#define SOKOAUDIT_BODY_END 17         /* by sokoaudit_judge alone: the body has a line 'end' */
#define SOKOAUDIT_NO_SUCH_KIND 18     /* by sokoaudit_judge alone: 'kind' is neither SOKOAUDIT_SOLUTION nor SOKOAUDIT_CERTIFICATE */

/* What a call reports besides the status that it returns. Each call with an outcome sets all numbers, whatever they were; a number that
 * means nothing is 0. */
struct sokoaudit_outcome {
    size_t bytes;      /* length of the whole text, even if there was no space for it */
    size_t levels;     /* number of levels in an audit, even if there was no space for all; the next four say how many of them are .. */
    size_t solved;
    size_t unsolvable;
    size_t refused;
    size_t missing;
    size_t records;    /* number of records in made answers, or in the answers of sokoaudit_records */
    size_t fault;      /* SOKOAUDIT_OUT_OF_MEMORY and so on if the call returns SOKOAUDIT_FAULT, otherwise 0 */
    size_t line;       /* line of the answers, from 1, if the fault is on one of them */
};

/* The verdict on a level: what its report line says after 'level N'. If several refusals apply, the verdict is the first in this order. */
enum sokoaudit_status {
    SOKOAUDIT_SOLVED = 1,              /* the letters solve the level, with 'moves', 'pushes' and 'changes' */
    SOKOAUDIT_UNSOLVABLE_PATTERNS = 2, /* no moves solve the level: its list is closed, with this number of 'patterns' */
    SOKOAUDIT_UNSOLVABLE_ZONE = 3,     /* no moves solve the level: its zone, with this number of 'cells', has too many boxes */
    SOKOAUDIT_REFUSED_BOARD = 4,       /* the level isn't legal: 'why' is SIZE, PLAYER, BOX, GOALS or OPEN */
    SOKOAUDIT_REFUSED_MOVE = 5,        /* letter 'number' is no legal step: 'why' is LETTER, WALL, BLOCKED or CASE */
    SOKOAUDIT_REFUSED_UNSOLVED = 6,    /* the letters end with this number of 'boxes' off the goals */
    SOKOAUDIT_REFUSED_LINE = 7,        /* 'line' isn't a line of a certificate: 'why' is SYNTAX or COUNT; or its pattern or zone isn't
                                          lawful: 'why' is BOARD, WALL, SEED or GOALS */
    SOKOAUDIT_REFUSED_START = 8,       /* no pattern covers the start */
    SOKOAUDIT_REFUSED_PUSH = 9,        /* no pattern covers the result of a push out of the pattern on 'line': the player on 'column',
                                          'row' steps in 'direction' */
    SOKOAUDIT_REFUSED_LEAK = 10,       /* a box on 'column', 'row' of the zone on 'line' can be pushed out of it in 'direction' */
    SOKOAUDIT_REFUSED_FITS = 11,       /* the zone on 'line' has no more boxes of the start than goals */
    SOKOAUDIT_MISSING = 12             /* the level is legal and has no answer; never by sokoaudit_judge */
};

/* Why something is refused: the last word of the line. */
enum sokoaudit_why {
    SOKOAUDIT_WHY_SIZE = 1,    /* the level has more than 255 columns or rows */
    SOKOAUDIT_WHY_PLAYER = 2,  /* the level has no player, or several */
    SOKOAUDIT_WHY_BOX = 3,     /* the level has no box */
    SOKOAUDIT_WHY_GOALS = 4,   /* the level has fewer goals than boxes; or all boxes of the pattern are on goals */
    SOKOAUDIT_WHY_OPEN = 5,    /* if there were no boxes, the player could walk to the edge of the level */
    SOKOAUDIT_WHY_LETTER = 6,  /* the letter is none of l u r d L U R D */
    SOKOAUDIT_WHY_WALL = 7,    /* the step goes into a wall; or a box of the pattern or a cell of the zone is on a wall */
    SOKOAUDIT_WHY_BLOCKED = 8, /* the box can't be pushed that way */
    SOKOAUDIT_WHY_CASE = 9,    /* the letter is small and the step is a push, or it is a capital and the step is none */
    SOKOAUDIT_WHY_SYNTAX = 10, /* the line isn't of its form, or it follows a zone line */
    SOKOAUDIT_WHY_COUNT = 11,  /* the line is one more pattern after 65,536 */
    SOKOAUDIT_WHY_BOARD = 12,  /* a box or seed of the pattern, or a cell of the zone, is off the board */
    SOKOAUDIT_WHY_SEED = 13    /* a seed of the pattern is on one of its boxes, or where the player could not come without boxes */
};

/* The verdict on one level. 'status' decides which of the other numbers mean something; the others are 0. */
struct sokoaudit_line {
    uint64_t status;    /* enum sokoaudit_status; 0 if there is no verdict */
    uint64_t why;       /* enum sokoaudit_why */
    uint64_t moves;     /* of the solution, pushes included */
    uint64_t pushes;    /* of the solution */
    uint64_t changes;   /* pushes of another box than the push before; the first push counts */
    uint64_t patterns;  /* number of patterns in the list */
    uint64_t cells;     /* number of cells in the zone */
    uint64_t boxes;     /* number of boxes off the goals after the last letter */
    uint64_t number;    /* number of the letter, from 1; blanks don't count */
    uint64_t line;      /* line of the answers text, or of the body for sokoaudit_judge, from 1; lines that are skipped count */
    uint64_t column;    /* column of the cell, from 1 */
    uint64_t row;       /* row of the cell, from 1 */
    uint64_t direction; /* the letter: 'l', 'u', 'r' or 'd' */
};

/* Where a level is in its text: offsets of bytes, from 0. */
struct sokoaudit_span {
    size_t at;  /* of the first byte of its first row */
    size_t end; /* of the byte after its last row, with the line end of that row */
};

/* What the body of a record is. */
enum sokoaudit_kind {
    SOKOAUDIT_SOLUTION = 1,   /* lines of letters */
    SOKOAUDIT_CERTIFICATE = 2 /* pattern lines, or one zone line */
};

/* Where a record is in its text: offsets of bytes, from 0. */
struct sokoaudit_record {
    size_t level;    /* number of its level, from 1 */
    size_t kind;     /* enum sokoaudit_kind */
    size_t line;     /* line of the text with which the body begins, from 1 */
    size_t at;       /* of its line 'level N' */
    size_t body;     /* of the byte after its line 'solution' or 'unsolvable', with the line end of that line */
    size_t body_end; /* of its line 'end' */
    size_t end;      /* of the byte after its line 'end', with the line end of that line */
};

/* Gives a verdict on one level with one solution or certificate. 'kind' is SOKOAUDIT_SOLUTION or SOKOAUDIT_CERTIFICATE. The body is
 * what an answers text has between the line 'solution' or 'unsolvable' and the line 'end'; its last line needs no line end. Lines that
 * are empty or begin with ';' are skipped. The verdict is the one that sokoaudit_lines gives for the level text and the answers text
 * 'sokoban-answers 2', 'level 1', the kind line, the body, 'end', except that 'line' counts from the first line of the body.
 * Returns SOKOAUDIT_DONE, or the number of a fault: then each number of 'line' is 0. For the words of the fault, pass
 * sokoaudit_fault_text an outcome with this 'fault' and 'line' 0.
 * SOKOAUDIT_SOLVED says that these letters solve the level with exactly these counts; SOKOAUDIT_UNSOLVABLE_PATTERNS and
 * SOKOAUDIT_UNSOLVABLE_ZONE say that no list of moves, of any length, solves it. A refused certificate says nothing about the level. */
uint32_t sokoaudit_judge(const uint8_t *level, size_t level_length, uint32_t kind, const uint8_t *body, size_t body_length,
                         struct sokoaudit_line *line);

/* Gives a verdict on each level of a collection, as the report of sokoaudit_audit on the same texts does, without its text: entry 0 is
 * the verdict on level 1. 'bytes' of the outcome is 0. Returns SOKOAUDIT_DONE or SOKOAUDIT_OPEN, also if there was no space for all
 * entries, or SOKOAUDIT_FAULT: then no entry is written. */
uint32_t sokoaudit_lines(const uint8_t *levels, size_t levels_length, const uint8_t *answers, size_t answers_length,
                         struct sokoaudit_line *lines, size_t space, struct sokoaudit_outcome *outcome);

/* Writes where the levels of a level text are: entry 0 is level 1. Writes as many entries as there is space for, and returns the number of
 * all levels. They are the ones that the other calls judge, but there may be more than SOKOAUDIT_MOST_LEVELS, and the text may have any
 * length. Takes no memory. */
size_t sokoaudit_levels(const uint8_t *levels, size_t levels_length, struct sokoaudit_span *spans, size_t space);

/* Writes where the records of an answers text are, in the order of their levels. 'levels' is the number of levels that the answers are to;
 * with SIZE_MAX there may be any. Writes as many entries as there is space for; 'records' of the outcome is the number of all records.
 * They are the ones that the other calls judge, but the text may have any length. The body of a record is the bytes from 'body' to
 * 'body_end', as sokoaudit_judge takes it. Returns SOKOAUDIT_DONE, or SOKOAUDIT_FAULT: then no entry is written, and 'fault' of the
 * outcome is SOKOAUDIT_OUT_OF_MEMORY or one of the faults of answers, with its line. */
uint32_t sokoaudit_records(const uint8_t *answers, size_t answers_length, size_t levels, struct sokoaudit_record *records,
                           size_t space, struct sokoaudit_outcome *outcome);

/* Writes the report of an audit: 'sokoaudit audit LEVELS ANSWERS'. Unless the call returns SOKOAUDIT_FAULT, a level that the report
 * calls solved is solved by its own letters with exactly these counts, and no list of moves, of any length, solves one that it
 * calls unsolvable. */
uint32_t sokoaudit_audit(const uint8_t *levels, size_t levels_length, const uint8_t *answers, size_t answers_length,
                         uint8_t *report, size_t space, struct sokoaudit_outcome *outcome);

/* Writes made answers, with a certificate for each level that is found unsolvable: 'sokoaudit make LEVELS'. Returns SOKOAUDIT_DONE
 * or SOKOAUDIT_FAULT. */
uint32_t sokoaudit_make(const uint8_t *levels, size_t levels_length, uint8_t *answers, size_t space,
                        struct sokoaudit_outcome *outcome);

/* Writes the map of a level with its dead squares: 'sokoaudit dead LEVELS N'. Levels are numbered from 1. Returns SOKOAUDIT_DONE
 * or SOKOAUDIT_FAULT. */
uint32_t sokoaudit_dead(const uint8_t *levels, size_t levels_length, size_t number, uint8_t *map, size_t space,
                        struct sokoaudit_outcome *outcome);

/* Writes the words of an outcome's fault, as the program prints them but without a line end: 'answers line 5 unclosed'. Only 'fault'
 * and 'line' of the outcome are read. Writes as much as there is space for, leaves the rest of the buffer unchanged, and returns the
 * length of the words, up to 64; 0 if there is no fault, and for SOKOAUDIT_BODY_END and SOKOAUDIT_NO_SUCH_KIND, which the program
 * doesn't have. */
size_t sokoaudit_fault_text(const struct sokoaudit_outcome *outcome, uint8_t *text, size_t space);

#ifdef __cplusplus
}
#endif

#endif
