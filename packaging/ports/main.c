/* The program for Windows and for Linux on ARM64, over the library: sokoaudit audit LEVELS ANSWERS | make LEVELS | dead LEVELS N.
 *
 * It prints what the program on Linux for x86-64 prints. No proof covers this file: the library's calls are proved for x86-64, and what is
 * said here of files, words and statuses is tested alone. HELP has the help texts, which packaging/native takes from the program. */
#include <errno.h>
#include <stdio.h>
#include <stdlib.h>
#include <string.h>
#ifdef _WIN32
#include <fcntl.h>
#include <io.h>
#include <windows.h>
#endif
#include "sokoaudit.h"
#include "help.h"

#define MOST_LEVELS 10000

/* A command: its name, the names of its values, and its help. */
struct command {
    const char *name, *values[2], *help;
};
static const struct command COMMANDS[] = {
    { "audit", { "<LEVELS>", "<ANSWERS>" }, HELP_AUDIT },
    { "make", { "<LEVELS>", NULL }, HELP_MAKE },
    { "dead", { "<LEVELS>", "<N>" }, HELP_DEAD },
    { "help", { NULL, NULL }, HELP_HELP },
};

/* the name in usage errors and help texts */
static const char *called = "sokoaudit";

static int fail(const char *words)
{
    fprintf(stderr, "%s\n", words);
    return 2;
}

/* ---- usage errors */

static int count_of(const struct command *command)
{
    return (command->values[0] != NULL) + (command->values[1] != NULL);
}

static int usage(const struct command *command)
{
    fprintf(stderr, "\nUsage: %s ", called);
    if (!command) fputs("<COMMAND>", stderr);
    else {
        fputs(command->name, stderr);
        for (int i = 0; i < count_of(command); i++) fprintf(stderr, " %s", command->values[i]);
    }
    return fail("\n\nFor more information, try '--help'.");
}

static int unexpected(const struct command *command, const char *word)
{
    fprintf(stderr, "error: unexpected argument '%s' found\n", word);
    if (command && word[0] == '-') fprintf(stderr, "\n  tip: to pass '%s' as a value, use '-- %s'\n", word, word);
    return usage(command);
}

static int invalid(const char *number, const char *why)
{
    fprintf(stderr, "error: invalid value '%s' for '<N>': %s\n", number, why);
    return fail("\nFor more information, try '--help'.");
}

/* Reads the number of a level: digits, perhaps after a plus sign. Returns 0 after a usage error. */
static uint32_t number_of(const char *text)
{
    const char *digits = text + (text[0] == '+');
    unsigned long long number = 0;
    if (!*text) invalid(text, "cannot parse integer from empty string");
    else if (!*digits || digits[strspn(digits, "0123456789")]) invalid(text, "invalid digit found in string");
    else {
        errno = 0;
        number = strtoull(digits, NULL, 10);
        if (errno == ERANGE) invalid(text, "number too large to fit in target type");
        else if (number >= 1 && number <= MOST_LEVELS) return (uint32_t)number;
        else {
            char why[64];
            snprintf(why, sizeof why, "%llu is not in 1..=%d", number, MOST_LEVELS);
            invalid(text, why);
        }
    }
    return 0;
}

/* ---- files and the library */

static FILE *opened(const char *name)
{
    static int is_taken;
    if (strcmp(name, "-")) {
#ifdef _WIN32
        wchar_t wide[32768];
        const char *end = strrchr(name, '.');
        if (!MultiByteToWideChar(CP_UTF8, 0, name, -1, wide, 32768)) return NULL;
        FILE *file = _wfopen(wide, L"rb");
        /* Windows takes nul.xsb for the device NUL, but a name with an end is meant for a file. */
        if (!file || !end || strpbrk(end, "/\\:") || GetFileType((HANDLE)_get_osfhandle(_fileno(file))) != FILE_TYPE_CHAR) return file;
        fclose(file);
        return NULL;
#else
        return fopen(name, "rb");
#endif
    }
    return is_taken++ ? NULL : stdin;
}

/* Returns the bytes of a file, up to one more than a text may have, or NULL after an error, of which it prints the words. */
static uint8_t *whole(FILE *file, size_t *length, const char *error)
{
    size_t room = 1 << 16, most = SOKOAUDIT_MOST_BYTES + 1, got;
    uint8_t *bytes = malloc(room), *more;
    *length = 0;
    while (bytes && *length < most && (got = fread(bytes + *length, 1, room - *length, file))) {
        if ((*length += got) < room || room >= most) continue;
        room = room * 2 < most ? room * 2 : most;
        if (!(more = realloc(bytes, room))) free(bytes);
        bytes = more;
    }
    if (!bytes) fail("out of memory");
    else if (ferror(file)) {
        fail(error);
        free(bytes);
        bytes = NULL;
    }
    return bytes;
}

/* Calls the library until the text has room, and prints the text or the words of the fault. */
static int printed(const struct command *command, const uint8_t *texts[2], const size_t lengths[2], uint32_t number)
{
    for (size_t room = 1 << 20;;) {
        struct sokoaudit_outcome outcome;
        uint8_t *text = malloc(room), fault[SOKOAUDIT_MOST_WORDS + 1] = { 0 };
        if (!text) return fail("out of memory");
        uint32_t status = command->name[0] == 'a'
            ? sokoaudit_audit(texts[0], lengths[0], texts[1], lengths[1], text, room, &outcome)
            : command->name[0] == 'm' ? sokoaudit_make(texts[0], lengths[0], text, room, &outcome)
                                      : sokoaudit_dead(texts[0], lengths[0], number, text, room, &outcome);
        if (status == SOKOAUDIT_FAULT) {
            sokoaudit_fault_text(&outcome, fault, SOKOAUDIT_MOST_WORDS);
            return fail((const char *)fault);
        }
        if (outcome.bytes <= room) {
            if (fwrite(text, 1, outcome.bytes, stdout) != outcome.bytes || fflush(stdout)) return fail("cannot write");
            return (int)status;
        }
        free(text);
        room = outcome.bytes;
    }
}

/* ---- the words of the command line */

static int say(const char *text)
{
    return fputs(text, stdout) < 0 || fflush(stdout) ? fail("cannot write") : 0;
}

/* Prints a help text, which has the name that the program is called by. */
static int help(const char *text)
{
    const char *name = strstr(text, "Usage: sokoaudit ") + strlen("Usage: "), *rest = name + strlen("sokoaudit");
    return printf("%.*s%s%s", (int)(name - text), text, called, rest) < 0 || fflush(stdout) ? fail("cannot write") : 0;
}

static const struct command *command_of(const char *name)
{
    for (size_t i = 0; i < sizeof COMMANDS / sizeof *COMMANDS; i++) {
        if (!strcmp(name, COMMANDS[i].name)) return &COMMANDS[i];
    }
    fprintf(stderr, "error: unrecognized subcommand '%s'\n", name);
    usage(NULL);
    return NULL;
}

static int run(const struct command *command, char **words, int count)
{
    const char *values[2] = { NULL, NULL };
    int wanted = count_of(command), found = 0, is_plain = 0;
    for (int i = 0; i < count; i++) {
        const char *word = words[i];
        if (!is_plain && !strcmp(word, "--")) is_plain = 1;
        else if (!is_plain && (!strcmp(word, "-h") || !strcmp(word, "--help"))) return help(command->help);
        else if ((!is_plain && word[0] == '-' && word[1]) || found == wanted) return unexpected(command, word);
        else values[found++] = word;
    }
    if (found < wanted) {
        fputs("error: the following required arguments were not provided:\n", stderr);
        for (int i = found; i < wanted; i++) fprintf(stderr, "  %s\n", command->values[i]);
        return usage(command);
    }
    uint32_t number = 0;
    int is_audit = command->name[0] == 'a';
    if (command->name[0] == 'd' && !(number = number_of(values[1]))) return 2;
    FILE *levels = opened(values[0]), *answers = levels && is_audit ? opened(values[1]) : NULL;
    if (!levels) return fail("cannot read levels");
    if (is_audit && !answers) return fail("cannot read answers");
    const uint8_t *texts[2] = { NULL, NULL };
    size_t lengths[2] = { 0, 0 };
    if (!(texts[0] = whole(levels, &lengths[0], "cannot read levels"))) return 2;
    if (lengths[0] > SOKOAUDIT_MOST_BYTES) return fail("levels too long");
    if (is_audit && !(texts[1] = whole(answers, &lengths[1], "cannot read answers"))) return 2;
    return printed(command, texts, lengths, number);
}

static int started(int count, char **words)
{
    if (count) {
        const char *name = words[0] + strlen(words[0]);
        while (name > words[0] && !strchr("/\\", name[-1])) name--;
        if (*name) called = name;
    }
    if (count < 2) {
        fprintf(stderr, "error: '%s' requires a subcommand but one was not provided\n  [subcommands: audit, make, dead, help]\n", called);
        return usage(NULL);
    }
    const char *first = words[1];
    if (!strcmp(first, "-h") || !strcmp(first, "--help")) return help(HELP);
    if (!strcmp(first, "-V") || !strcmp(first, "--version")) return say("sokoaudit " SOKOAUDIT_VERSION "\n");
    if (first[0] == '-') return unexpected(NULL, first);
    const struct command *command = command_of(first);
    if (!command) return 2;
    if (strcmp(first, "help")) return run(command, words + 2, count - 2);
    if (count == 2) return help(HELP);
    return (command = command_of(words[2])) ? help(command->help) : 2;
}

#ifdef _WIN32
int wmain(int count, wchar_t **wide)
{
    _setmode(_fileno(stdin), _O_BINARY);
    _setmode(_fileno(stdout), _O_BINARY);
    _setmode(_fileno(stderr), _O_BINARY);
    char **words = malloc(count * sizeof *words);
    for (int i = 0; words && i < count; i++) {
        int room = WideCharToMultiByte(CP_UTF8, WC_ERR_INVALID_CHARS, wide[i], -1, NULL, 0, NULL, NULL);
        if (!room) return fail("words not in UTF-8");
        if (!(words[i] = malloc(room))) return fail("out of memory");
        WideCharToMultiByte(CP_UTF8, 0, wide[i], -1, words[i], room, NULL, NULL);
    }
    return words ? started(count, words) : fail("out of memory");
}
#else
/* Returns whether a word is valid UTF-8: no byte that is missing or too many, no longer form than needed, no surrogate, and none above
 * U+10FFFF. */
static int is_utf8(const unsigned char *word)
{
    while (*word) {
        unsigned long least = 0, code = *word++;
        int more = code < 0x80 ? 0 : code < 0xc2 ? -1 : code < 0xe0 ? 1 : code < 0xf0 ? 2 : code < 0xf5 ? 3 : -1;
        if (more < 0) return 0;
        if (more) code &= 0x3f >> more, least = more == 1 ? 0x80 : more == 2 ? 0x800 : 0x10000;
        for (; more; more--, word++) {
            if ((*word & 0xc0) != 0x80) return 0;
            code = code << 6 | (*word & 0x3f);
        }
        if (code < least || code > 0x10ffff || (code >= 0xd800 && code < 0xe000)) return 0;
    }
    return 1;
}

int main(int count, char **words)
{
    for (int i = 1; i < count; i++) {
        if (!is_utf8((const unsigned char *)words[i])) return fail("words not in UTF-8");
    }
    return started(count, words);
}
#endif
