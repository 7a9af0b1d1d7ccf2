/* What the programs here share: checks that count what fails, and a case text
 * that comes from a file or from standard input.
 */
#ifndef TRIAL_H
#define TRIAL_H

#include "colliemist.h"

#include <stdio.h>
#include <stdlib.h>
#include <string.h>

/* Fills rows before a call, to see what it leaves alone. */
#define FILLER 0xA5

/* One byte more than a case text may have: a longer one is refused alike. */
static uint8_t text[COLLIEMIST_TEXT_BYTES + 1];

static int failures = 0;

static void expect(int holds, const char *what)
{
    if (!holds) {
        fprintf(stderr, "FAILED: %s\n", what);
        failures++;
    }
}

/* Whether the bytes of a row from `from` on are still as they were filled. */
static int untouched(const void *row, size_t bytes, size_t from)
{
    for (size_t at = from; at < bytes; at++)
        if (((const uint8_t *)row)[at] != FILLER)
            return 0;
    return 1;
}

/* Says what came of the checks. */
static int verdict(const char *program)
{
    if (failures == 0)
        printf("%s --check: all as promised\n", program);
    return failures == 0 ? EXIT_SUCCESS : EXIT_FAILURE;
}

/* Puts bytes on standard output, all of them. */
static int put(const char *program, const uint8_t *bytes, size_t count)
{
    if (fwrite(bytes, 1, count, stdout) != count || fflush(stdout) != 0) {
        perror(program);
        return EXIT_FAILURE;
    }
    return EXIT_SUCCESS;
}

/* Takes the text from a file and does with it what the program is for; `show`
 * is given the text's length. */
static int show_text(const char *program, FILE *from, int (*show)(size_t))
{
    size_t length = fread(text, 1, sizeof text, from);
    if (ferror(from)) {
        perror(program);
        return EXIT_FAILURE;
    }
    return show(length);
}

/* The program: PROGRAM [FILE | --check]. */
static int trial(const char *program, int argc, char **argv,
                 int (*check)(void), int (*show)(size_t))
{
    if (argc > 2) {
        fprintf(stderr, "usage: %s [FILE | --check]\n", program);
        return EXIT_FAILURE;
    }
    if (argc < 2)
        return show_text(program, stdin, show);
    if (strcmp(argv[1], "--check") == 0)
        return check();
    FILE *from = fopen(argv[1], "rb");
    if (from == NULL) {
        perror(argv[1]);
        return EXIT_FAILURE;
    }
    int result = show_text(program, from, show);
    fclose(from);
    return result;
}

#endif
