/* An output that holds a pattern, and what a call left of it. */
#ifndef OUTPUT_H
#define OUTPUT_H

#include <string.h>

#include "ostrogosz.h"

#define ROOM 900
#define HELD 0xA5

static uint8_t output[ROOM];

/* The output as it is before each call. */
static inline uint8_t *fresh_output(void)
{
    memset(output, HELD, sizeof output);
    return output;
}

/* The octets of output from this place on keep what they held. */
static inline int kept_from(size_t place)
{
    while (place < sizeof output && output[place] == HELD) {
        place++;
    }
    return place == sizeof output;
}

/* A writer's refusal, which wrote nothing. */
static inline int refused(struct ostrogosz_written written, uint32_t number)
{
    return written.refusal == number && written.length == 0 && kept_from(0);
}

/* A writer wrote these octets and nothing behind them. */
static inline int wrote(struct ostrogosz_written written, const uint8_t *octets,
                        size_t length)
{
    return written.refusal == 0 && written.length == length &&
           memcmp(output, octets, length) == 0 && kept_from(length);
}

#endif
