/* The numbers of a field, in every message that has it. */
#ifndef NUMBERS_H
#define NUMBERS_H

#include <stddef.h>
#include <stdint.h>

#include "expect.h"

/* Whether a kind takes a number, or refuses it, each way. */
typedef int (*number_test)(size_t kind, unsigned number);

/* Says which number it was where a test fails. */
static inline int number_holds(number_test test, size_t kind, unsigned number)
{
    int holds = test(kind, number);

    if (!holds) {
        printf("kind %u, number %u\n", (unsigned)kind, number);
    }
    return holds;
}

#endif
