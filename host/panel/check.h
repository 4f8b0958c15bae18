/*
 * Checks that are counted, for the test programs of this folder.
 */
#ifndef CHECK_H
#define CHECK_H

#include <stdio.h>

static int passed, failed;

static void check(const char *what, int holds)
{
    if (holds) {
        passed++;
    } else {
        failed++;
        printf("FAILED: %s\n", what);
    }
}

/* The last line of a program, and its exit code. */
static int counted(const char *program)
{
    printf("%s: %d passed, %d failed\n", program, passed, failed);
    return failed != 0;
}

#endif
