/*
 * All writable memory of the process looked through, with the stack below as
 * a call left it.
 */
#ifndef MEMORY_H
#define MEMORY_H

#include "expect.h"
#include "secret.h"

/* The stack below, as a call left it: looking through memory takes stack too,
 * and would cover what was left. */
static uint8_t below[1 << 15];

/* Calls, and keeps what the call left on the stack below. */
static void call_and_keep(void (*call)(void))
{
    volatile uint8_t here = 0;
    const volatile uint8_t *stack = &here;
    size_t i;
    wipe(below, sizeof below);
    call();
    for (i = 0; i < sizeof below; i++) {
        ((volatile uint8_t *)below)[sizeof below - 1 - i] =
            *(const volatile uint8_t *)((uintptr_t)stack - 1 - i);
    }
}

/* Hands each writable stretch of memory to a function that counts. */
static void look_through(void (*count)(const volatile uint8_t *, size_t))
{
    static struct region regions[256];
    size_t found = writable_regions("/proc/self/maps", regions, 256);
    size_t i;
    EXPECT(found > 0 && found < 256);
    for (i = 0; i < found; i++) {
        count((const volatile uint8_t *)regions[i].start,
              regions[i].end - regions[i].start);
    }
}

#endif
