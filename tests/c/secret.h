/*
 * A private identity and address that no memory holds but where a test puts
 * them: their octets are made one at a time, and memory is compared with them
 * one octet at a time.
 */
#ifndef SECRET_H
#define SECRET_H

#include <stddef.h>
#include <stdint.h>
#include <stdio.h>
#include <stdlib.h>
#include <string.h>

/* Octets of the identity and of the address. */
#define IDENTITY 8
#define ADDRESS 3

/* Which of two secrets it is; read anew for each octet. */
static volatile unsigned secret;

/* Letters and digits, other ones for each secret. */
static inline uint8_t identity_octet(size_t place)
{
    return (uint8_t)('A' + (place * (secret == 0 ? 7 : 11) + 5) % 26);
}

/* The least significant octet first; the second secret's has a 7E. */
static inline uint8_t address_octet(size_t place)
{
    return (uint8_t)((secret == 0 ? 0xD3 : 0x95) - 23 * place);
}

static inline void put_identity(uint8_t *text)
{
    size_t i;
    for (i = 0; i < IDENTITY; i++) {
        ((volatile uint8_t *)text)[i] = identity_octet(i);
    }
}

/* In a number of 32 bits, the most significant octet 0. */
static inline void put_address(uint32_t *number)
{
    volatile uint8_t *octets = (volatile uint8_t *)number;
    size_t i;
    for (i = 0; i < ADDRESS; i++) {
        octets[i] = address_octet(i);
    }
    octets[ADDRESS] = 0;
}

/* What is looked for. */
struct traces {
    unsigned identities; /* the whole text */
    unsigned addresses;  /* in either order of its octets */
};

static inline int is_identity(const volatile uint8_t *at)
{
    size_t i;
    for (i = 0; i < IDENTITY && at[i] == identity_octet(i); i++) {
    }
    return i == IDENTITY;
}

static inline int is_address(const volatile uint8_t *at)
{
    size_t up, down;
    for (up = 0; up < ADDRESS && at[up] == address_octet(up); up++) {
    }
    for (down = 0;
         down < ADDRESS && at[down] == address_octet(ADDRESS - 1 - down);
         down++) {
    }
    return up == ADDRESS || down == ADDRESS;
}

/* Counts the traces in some octets. */
static inline void count_traces(const volatile uint8_t *octets, size_t length,
                                struct traces *found)
{
    size_t i;
    for (i = 0; i + IDENTITY <= length; i++) {
        found->identities += (unsigned)is_identity(octets + i);
        found->addresses += (unsigned)is_address(octets + i);
    }
}

/* Stores that the compiler may not leave out, though nothing reads them. */
static inline void wipe(void *memory, size_t length)
{
    volatile uint8_t *octets = (volatile uint8_t *)memory;
    while (length > 0) {
        length--;
        octets[length] = 0;
    }
}

/* A writable stretch of a process's memory. */
struct region {
    uintptr_t start;
    uintptr_t end;
};

/* The writable memory of a process, from the file of its maps; how many. */
static inline size_t writable_regions(const char *maps, struct region *regions,
                                      size_t most)
{
    FILE *file = fopen(maps, "r");
    char line[512];
    size_t count = 0;
    if (file == NULL) {
        return 0;
    }
    while (count < most && fgets(line, sizeof line, file) != NULL) {
        char *dash = strchr(line, '-');
        char *space = strchr(line, ' ');
        if (dash == NULL || space == NULL || space[1] != 'r' ||
            space[2] != 'w') {
            continue;
        }
        regions[count].start = (uintptr_t)strtoull(line, NULL, 16);
        regions[count].end = (uintptr_t)strtoull(dash + 1, NULL, 16);
        count++;
    }
    fclose(file);
    return count;
}

#endif
