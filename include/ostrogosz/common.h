/*
 * Ostrogosz: what all calls share.
 *
 * The calls allocate nothing and keep nothing: what they are given and what
 * they answer lies in memory that the caller lends, and no identity or address
 * is left in any other, as a test of the built archive looks for. So threads
 * may call them at once as long as no octet that one of them writes is lent to
 * another. Of the C library they call memcpy and memset at most.
 *
 * Every call answers on every input. A refusal is a number of the table in
 * document 01 and never a length, and leaves the lent output, or struct, as it
 * was.
 *
 * Pointers: a pointer goes with the length behind it and points to that many
 * octets; where the length is 0 it may be anything, NULL too. A pointer to a
 * struct, or to an array whose length the declaration says, points to all of
 * it. Memory that a call writes must not overlap any other that it is lent, and
 * nobody else may touch it during the call.
 */
#ifndef OSTROGOSZ_COMMON_H
#define OSTROGOSZ_COMMON_H

/* Structs are lent as the octets that this target's compilers lay out. */
#if !defined(__x86_64__) || defined(__ILP32__) || !defined(__linux__)
#error "the archives of Ostrogosz are for x86-64 Linux"
#endif

#include <stddef.h>
#include <stdint.h>

#ifdef __cplusplus
extern "C" {
#endif

#define OSTROGOSZ_VERSION "0.2.0"

/*
 * The number of this interface. It grows with every change after which a driver
 * must be built anew, and every file that includes this header names the symbol
 * below: with an archive of another number it doesn't link.
 */
#define OSTROGOSZ_ABI 1

uint32_t ostrogosz_abi_1(void); /* gives OSTROGOSZ_ABI */

static uint32_t (*const ostrogosz_abi_linked)(void)
    __attribute__((used, unused)) = ostrogosz_abi_1;

/* A fact about a struct's layout, tested where the header is compiled. */
#define OSTROGOSZ_ASSERT(name, fact)                                           \
    typedef char ostrogosz_assert_##name[(fact) ? 1 : -1]                      \
        __attribute__((unused))
#define OSTROGOSZ_SIZE(type, octets)                                           \
    OSTROGOSZ_ASSERT(size_of_##type, sizeof(struct type) == (octets))
#define OSTROGOSZ_OFFSET(type, field, octets)                                  \
    OSTROGOSZ_ASSERT(type##_at_##field,                                        \
                     offsetof(struct type, field) == (octets))

/* A writer's answer. */
struct ostrogosz_written {
    uint32_t refusal; /* 0: accepted; else the refusal's number */
    size_t length;    /* accepted: octets written; refused: 0 */
};
OSTROGOSZ_SIZE(ostrogosz_written, 16);
OSTROGOSZ_OFFSET(ostrogosz_written, length, 8);

/* ---- The refusals, as in the table of document 01 ---- */

/* The receiver's. */
#define OSTROGOSZ_REFUSAL_BAD_ESCAPE 1 /* 7D before neither 5D, 5E nor 7E */
#define OSTROGOSZ_REFUSAL_ESCAPE_BEFORE_FLAG 2 /* 7D right before the flag */
#define OSTROGOSZ_REFUSAL_TOO_LONG 3    /* more than 438 unstuffed octets */
#define OSTROGOSZ_REFUSAL_TOO_SHORT 4   /* fewer than 3 unstuffed octets */
#define OSTROGOSZ_REFUSAL_WRONG_CHECK 5 /* the check is wrong */
#define OSTROGOSZ_REFUSAL_ROOM 6        /* output shorter than the body */

/* The writers'. */
#define OSTROGOSZ_REFUSAL_BODY_LENGTH 7   /* body of 0 or over 436 octets */
#define OSTROGOSZ_REFUSAL_OUTPUT_LENGTH 8 /* output too short */

/* The readers' of UCP messages; the writers give 13 too. */
#define OSTROGOSZ_REFUSAL_UNKNOWN_ID 10     /* unknown ID, or no octet */
#define OSTROGOSZ_REFUSAL_MESSAGE_LENGTH 11 /* another length than the kind's */
#define OSTROGOSZ_REFUSAL_FIXED 12 /* wrong version, signature or subtype */
#define OSTROGOSZ_REFUSAL_FIELD 13 /* a field outside its range or its bits */

/* The readers' of MAVLink frames; the writers give 25 too. */
#define OSTROGOSZ_REFUSAL_MAVLINK_SHORT 20       /* too few octets */
#define OSTROGOSZ_REFUSAL_MAVLINK_START 21       /* first octet not FE */
#define OSTROGOSZ_REFUSAL_MAVLINK_UNKNOWN_ID 22  /* unknown message ID */
#define OSTROGOSZ_REFUSAL_MAVLINK_LENGTH 23      /* length not the kind's */
#define OSTROGOSZ_REFUSAL_MAVLINK_WRONG_CHECK 24 /* the check is wrong */
#define OSTROGOSZ_REFUSAL_MAVLINK_FIELD 25 /* a field outside its range */

/* ---- The emitter categories, in the words of source document 004 ---- */

/*
 * What sends: the emitter of 10, 20, 117, 201 and 246. 117 and 201 take 0 to
 * 21, of which 8, 13 and 16 are unassigned; the others carry any octet.
 */
#define OSTROGOSZ_EMITTER_NO_TYPE_INFORMATION 0
#define OSTROGOSZ_EMITTER_LIGHT 1               /* under 15,500 lbs */
#define OSTROGOSZ_EMITTER_SMALL 2               /* 15,500 to 75,000 lbs */
#define OSTROGOSZ_EMITTER_LARGE 3               /* 75,000 to 300,000 lbs */
#define OSTROGOSZ_EMITTER_HIGH_VORTEX_LARGE 4   /* as B757 */
#define OSTROGOSZ_EMITTER_HEAVY 5               /* over 300,000 lbs */
#define OSTROGOSZ_EMITTER_HIGHLY_MANEUVERABLE 6 /* over 5G, high speed */
#define OSTROGOSZ_EMITTER_ROTORCRAFT 7
#define OSTROGOSZ_EMITTER_GLIDER 9 /* sailplane */
#define OSTROGOSZ_EMITTER_LIGHTER_THAN_AIR 10
#define OSTROGOSZ_EMITTER_PARACHUTIST 11 /* sky diver */
#define OSTROGOSZ_EMITTER_ULTRALIGHT 12  /* hang glider, paraglider */
#define OSTROGOSZ_EMITTER_UNMANNED_AERIAL_VEHICLE 14
#define OSTROGOSZ_EMITTER_SPACE_VEHICLE 15 /* trans-atmospheric */
#define OSTROGOSZ_EMITTER_SURFACE_EMERGENCY_VEHICLE 17
#define OSTROGOSZ_EMITTER_SURFACE_SERVICE_VEHICLE 18
#define OSTROGOSZ_EMITTER_POINT_OBSTACLE 19 /* tethered balloons too */
#define OSTROGOSZ_EMITTER_CLUSTER_OBSTACLE 20
#define OSTROGOSZ_EMITTER_LINE_OBSTACLE 21

#ifdef __cplusplus
}
#endif

#endif
