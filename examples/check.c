/* Checks a certificate for a level in a string, and prints the report's first line: the library from a solver's view.
   At the top of a checkout, after 'make lib':
   cc -I out/lib examples/check.c out/lib/libsokoaudit.a -o check && ./check
   Where the library is installed: cc check.c $(pkg-config --cflags --libs sokoaudit) -o check */
#include <stdio.h>
#include <string.h>
#include "sokoaudit.h"

int main(void) {
    const char *level = "#####\n#@ .#\n# $ #\n#####\n";
    /* No push leads out of these three positions in the lower row, and none of them has its box on the goal. */
    const char *answers = "sokoban-answers 1\nlevel 1\nunsolvable\npattern 2,3 @ *\npattern 3,3 @ *\npattern 4,3 @ *\nend\n";
    uint8_t report[256];
    struct sokoaudit_outcome outcome;
    uint32_t status = sokoaudit_audit((const uint8_t *)level, strlen(level), (const uint8_t *)answers, strlen(answers), report,
                                      sizeof report, &outcome);
    if (status == SOKOAUDIT_FAULT) {
        uint8_t words[64];
        size_t length = sokoaudit_fault_text(&outcome, words, sizeof words);
        printf("%.*s\n", (int)length, (const char *)words);
    } else {
        size_t line = strcspn((const char *)report, "\n");
        printf("%.*s\n", (int)line, (const char *)report);
    }
    return (int)status;
}
