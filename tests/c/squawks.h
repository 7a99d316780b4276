/* Squawks, in every message that has one: four octal digits, sent as a decimal
 * number. */
#ifndef SQUAWKS_H
#define SQUAWKS_H

#include "numbers.h"

/* Codes, and beside each a number that is none: an 8 in every place, or too
 * many digits. 7 is 0007. */
static const unsigned by_hand[][2] = {
    {7, 8},       {70, 80},     {700, 800},   {7000, 8000},
    {7777, 7778}, {7770, 7780}, {7700, 7800}, {1277, 1280},
    {1200, 9999}, {0, 10000},   {777, 57777}, {77, 65534},
};

/* Every number but 65535, of which each kind has its own to say. */
static inline void try_squawks(size_t kind, number_test takes,
                               number_test refuses)
{
    static uint8_t is_code[65535];
    unsigned octal, squawk;
    size_t i;
    int held = 1;

    for (i = 0; i < sizeof by_hand / sizeof by_hand[0]; i++) {
        EXPECT(number_holds(takes, kind, by_hand[i][0]));
        EXPECT(number_holds(refuses, kind, by_hand[i][1]));
    }
    /* Put together from digits: the rule takes numbers apart. */
    for (octal = 0; octal < 4096; octal++) {
        is_code[octal / 512 * 1000 + octal / 64 % 8 * 100 + octal / 8 % 8 * 10 +
                octal % 8] = 1;
    }
    for (squawk = 0; squawk < sizeof is_code; squawk++) {
        held = held &&
               number_holds(is_code[squawk] ? takes : refuses, kind, squawk);
    }
    EXPECT(held);
}

#endif
