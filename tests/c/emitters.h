/* Emitters: 117 and 201 take 0 to 21, the last three of them obstacles; all
 * other messages that have one carry every octet. */
#ifndef EMITTERS_H
#define EMITTERS_H

#include "numbers.h"
#include "ostrogosz.h"

/* Every octet, of which those from this one on are refused. */
static inline void try_emitters(size_t kind, unsigned refused_from,
                                number_test takes, number_test refuses)
{
    unsigned emitter;
    int held = 1;

    for (emitter = 0; emitter < 256; emitter++) {
        held = held && number_holds(emitter < refused_from ? takes : refuses,
                                    kind, emitter);
    }
    EXPECT(held);
}

/* 117 or 201. */
static inline void try_ranged_emitters(size_t kind, number_test takes,
                                       number_test refuses)
{
    EXPECT(OSTROGOSZ_EMITTER_POINT_OBSTACLE == 19);
    EXPECT(OSTROGOSZ_EMITTER_CLUSTER_OBSTACLE == 20);
    EXPECT(OSTROGOSZ_EMITTER_LINE_OBSTACLE == 21);
    EXPECT(number_holds(takes, kind, OSTROGOSZ_EMITTER_CLUSTER_OBSTACLE));
    EXPECT(number_holds(takes, kind, OSTROGOSZ_EMITTER_LINE_OBSTACLE));
    EXPECT(number_holds(refuses, kind, OSTROGOSZ_EMITTER_LINE_OBSTACLE + 1));
    try_emitters(kind, 22, takes, refuses);
}

/* Any other kind. */
static inline void try_carried_emitters(size_t kind, number_test takes)
{
    try_emitters(kind, 256, takes, takes);
}

#endif
