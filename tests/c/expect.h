/*
 * Counting tests, in the common part of C99 and C++: each test file is built
 * and run as both.
 */
#ifndef EXPECT_H
#define EXPECT_H

#include <stdio.h>

static unsigned passed;
static unsigned failed;

static void expect_at(int holds, const char *what, int line)
{
    if (holds) {
        passed++;
    } else {
        failed++;
        printf("line %d: not so: %s\n", line, what);
    }
}

#define EXPECT(fact) expect_at((fact) ? 1 : 0, #fact, __LINE__)

/* Prints the counts; the exit status. */
static int finish(void)
{
    printf("%u passed, %u failed\n", passed, failed);
    return failed != 0 || passed == 0;
}

#endif
