/* The receiver, called as a driver calls it. */
#include <string.h>

#include "expect.h"
#include "ostrogosz.h"
#include "output.h"

static struct ostrogosz_ucp_receiver receiver;

static int store_is_zero(const uint8_t *store)
{
    static const uint8_t zeros[OSTROGOSZ_UCP_STORE] = {0};

    return memcmp(store, zeros, sizeof zeros) == 0;
}

/* What every flag leaves, counts excepted. */
static int flag_left(const struct ostrogosz_ucp_receiver *r)
{
    return store_is_zero(r->store) && r->line[OSTROGOSZ_UCP_LINE_STORED] == 0 &&
           r->line[OSTROGOSZ_UCP_LINE_PHASE] == OSTROGOSZ_UCP_PHASE_READING;
}

static int counts_are(uint32_t flags, uint32_t delivered, uint32_t refused,
                      uint32_t skipped, uint32_t open)
{
    return receiver.line[OSTROGOSZ_UCP_LINE_FLAGS] == flags &&
           receiver.line[OSTROGOSZ_UCP_LINE_DELIVERED] == delivered &&
           receiver.line[OSTROGOSZ_UCP_LINE_REFUSED] == refused &&
           receiver.line[OSTROGOSZ_UCP_LINE_SKIPPED] == skipped &&
           receiver.line[OSTROGOSZ_UCP_LINE_OPEN] == open;
}

/* A fresh receiver's answer at the end of a line, by the slice; and by the
 * octet, which must be the same. */
static int answers(const uint8_t *line, size_t length, size_t room,
                   uint32_t kind, uint32_t value)
{
    struct ostrogosz_ucp_answer answer = {0, 0};
    struct ostrogosz_ucp_taken taken;
    size_t i;

    ostrogosz_ucp_receiver_start(&receiver);
    for (i = 0; i < length && answer.kind == 0; i++) {
        answer =
            ostrogosz_ucp_receiver_receive(&receiver, line[i], output, room);
    }
    ostrogosz_ucp_receiver_start(&receiver);
    taken = ostrogosz_ucp_receiver_receive_slice(&receiver, line, length,
                                         fresh_output(), room);
    return i == length && taken.taken == length && answer.kind == kind &&
           answer.value == value && taken.kind == kind && taken.value == value;
}

static void try_frames(void)
{
    static const uint8_t heartbeat[] = {0x7E, 0x00, 0x81, 0x41, 0xDB, 0xD0,
                                        0x08, 0x02, 0xB3, 0x8B, 0x7E};
    static const uint8_t escapes[] = {0x7E, 0x7D, 0x5D, 0x7D, 0x5E,
                                      0x7D, 0x5E, 0x7D, 0x5D, 0x7E};
    static const uint8_t unstuffed[] = {0x7D, 0x7E};

    EXPECT(answers(heartbeat, sizeof heartbeat, ROOM, 1, 7));
    EXPECT(memcmp(output, heartbeat + 1, 7) == 0 && kept_from(7));
    EXPECT(flag_left(&receiver) && counts_are(2, 9, 0, 0, 0));
    EXPECT(answers(heartbeat, sizeof heartbeat, 7, 1, 7));
    EXPECT(answers(heartbeat, sizeof heartbeat, 6, 2, 6) && kept_from(0));
    EXPECT(flag_left(&receiver) && counts_are(2, 0, 9, 0, 0));

    EXPECT(answers(escapes, sizeof escapes, 2, 1, 2));
    EXPECT(memcmp(output, unstuffed, 2) == 0 && kept_from(2));
    EXPECT(counts_are(2, 8, 0, 0, 0));
}

static void try_refusals(void)
{
    static const uint8_t bad_escape[] = {0x7E, 0x7D, 0x00, 0x7E};
    static const uint8_t escape_flag[] = {0x7E, 0x7D, 0x7E};
    static const uint8_t too_short[] = {0x7E, 0x01, 0x01, 0x7E};
    static const uint8_t wrong[] = {0x7E, 0x2C, 0x02, 0x2B, 0xC4, 0xE7, 0x7E};
    static const uint8_t empty[] = {0x7E, 0x7E};

    EXPECT(answers(bad_escape, sizeof bad_escape, ROOM, 2, 1) && kept_from(0));
    EXPECT(answers(escape_flag, sizeof escape_flag, ROOM, 2, 2));
    EXPECT(kept_from(0));
    EXPECT(answers(too_short, sizeof too_short, ROOM, 2, 4) && kept_from(0));
    EXPECT(answers(wrong, sizeof wrong, ROOM, 2, 5) && kept_from(0));
    EXPECT(answers(empty, sizeof empty, ROOM, 0, 0) && kept_from(0));
    EXPECT(flag_left(&receiver) && counts_are(2, 0, 0, 0, 0));
}

/* 438 unstuffed octets are delivered, 439 refused. */
static void try_longest(void)
{
    uint8_t line[441];

    memset(line, 0, sizeof line);
    line[0] = line[439] = 0x7E;
    EXPECT(answers(line, 440, ROOM, 1, 436) && kept_from(436));
    EXPECT(answers(line, 440, 436, 1, 436));
    EXPECT(answers(line, 440, 435, 2, 6) && kept_from(0));
    line[439] = 0;
    line[440] = 0x7E;
    EXPECT(answers(line, 441, ROOM, 2, 3) && kept_from(0));
    EXPECT(flag_left(&receiver) && counts_are(2, 0, 439, 0, 0));
}

/* The line that document 01 has its lister print. */
static void try_listed_line(void)
{
    static const uint8_t line[] = {0x7E, 0x2C, 0x01, 0x01, 0x2C, 0x7E, 0x2C,
                                   0x02, 0x2B, 0xC5, 0xE7, 0x7E, 0x7D, 0x7E};
    static const uint32_t due[][3] = {{1, 2, 6}, {1, 3, 6}, {2, 2, 2}};
    struct ostrogosz_ucp_taken t;
    size_t at = 0;
    size_t i;

    ostrogosz_ucp_receiver_start(&receiver);
    for (i = 0; i < 3; i++) {
        t = ostrogosz_ucp_receiver_receive_slice(&receiver, line + at,
                                                 sizeof line - at, output,
                                                 OSTROGOSZ_UCP_LONGEST_BODY);
        EXPECT(t.kind == due[i][0] && t.value == due[i][1]);
        EXPECT(t.taken == due[i][2]);
        at += t.taken;
    }
    EXPECT(at == sizeof line && counts_are(4, 9, 1, 0, 0));
    EXPECT(ostrogosz_ucp_receiver_octets(&receiver) == 14);
}

/* Where a length is 0 the pointer is never followed. */
static void try_no_pointer(void)
{
    static const uint8_t line[] = {0x00, 0x7E, 0x2C, 0x01, 0x01, 0x2C};
    struct ostrogosz_ucp_answer answer;
    struct ostrogosz_ucp_taken taken;

    ostrogosz_ucp_receiver_start(&receiver);
    taken = ostrogosz_ucp_receiver_receive_slice(&receiver, NULL, 0, NULL, 0);
    EXPECT(taken.kind == 0 && taken.value == 0 && taken.taken == 0);
    taken = ostrogosz_ucp_receiver_receive_slice(&receiver, line, 6, NULL, 0);
    EXPECT(taken.kind == 0 && taken.value == 0 && taken.taken == 6);
    EXPECT(counts_are(1, 0, 0, 1, 4));
    EXPECT(memcmp(receiver.store, line + 2, 4) == 0);
    EXPECT(receiver.line[OSTROGOSZ_UCP_LINE_STORED] == 4);
    answer = ostrogosz_ucp_receiver_receive(&receiver, 0x7E, NULL, 0);
    EXPECT(answer.kind == 2 && answer.value == 6 && flag_left(&receiver));
}

/* The byte map that the header gives. */
static void try_byte_map(void)
{
    static const uint8_t line[] = {0x11, 0x7E, 0x2C, 0x7D};
    uint8_t dump[sizeof receiver];

    EXPECT(sizeof receiver == 468);
    EXPECT(offsetof(struct ostrogosz_ucp_receiver, store) == 0);
    EXPECT(offsetof(struct ostrogosz_ucp_receiver, line) == 440);

    ostrogosz_ucp_receiver_start(&receiver);
    ostrogosz_ucp_receiver_receive_slice(&receiver, line, sizeof line, output,
                                         ROOM);
    memcpy(dump, &receiver, sizeof dump);
    EXPECT(dump[0] == 0x2C && dump[1] == 0);
    EXPECT(dump[440] == OSTROGOSZ_UCP_PHASE_ESCAPE && dump[444] == 1);
    EXPECT(dump[448] == 1 && dump[452] == 0 && dump[456] == 0);
    EXPECT(dump[460] == 1 && dump[464] == 2);
}

/* A dump in every phase: after each of these lines, the phase and the octets
 * stored. */
static void try_phases(void)
{
    static const struct {
        size_t length;
        uint8_t line[5];
        uint8_t phase;
        uint8_t stored;
    } cases[] = {
        {1, {0x2C}, 0, 0},
        {2, {0x7E, 0x2C}, 1, 1},
        {4, {0x7E, 0x2C, 0x02, 0x7D}, 2, 2},
        {5, {0x7E, 0x2C, 0x02, 0x7D, 0x00}, 3, 2},
        {5, {0x7E, 0x2C, 0x7D, 0x5E, 0x7E}, 1, 0},
    };
    uint8_t dump[sizeof receiver];
    size_t i;

    for (i = 0; i < sizeof cases / sizeof cases[0]; i++) {
        ostrogosz_ucp_receiver_start(&receiver);
        ostrogosz_ucp_receiver_receive_slice(
            &receiver, cases[i].line, cases[i].length, output, ROOM);
        memcpy(dump, &receiver, sizeof dump);
        EXPECT(dump[440] == cases[i].phase && dump[444] == cases[i].stored);
    }
    /* The 439th unstuffed octet is one too many. */
    ostrogosz_ucp_receiver_start(&receiver);
    for (i = 0; i < 440; i++) {
        ostrogosz_ucp_receiver_receive(&receiver, i == 0 ? 0x7E : 0x2C, output,
                                       ROOM);
    }
    memcpy(dump, &receiver, sizeof dump);
    EXPECT(dump[440] == OSTROGOSZ_UCP_PHASE_TOO_LONG);
    EXPECT(dump[444] + 256 * dump[445] == OSTROGOSZ_UCP_STORE);
}

/* Each count runs round at 2^32. */
static void try_counts_that_run_round(void)
{
    static const uint8_t line[] = {0x7E, 0x2C, 0x01, 0x01, 0x2C, 0x7E,
                                   0x00, 0x7E, 0x00, 0x00};
    size_t i;

    ostrogosz_ucp_receiver_start(&receiver);
    for (i = OSTROGOSZ_UCP_LINE_FLAGS; i < OSTROGOSZ_UCP_LINE; i++) {
        receiver.line[i] = UINT32_MAX;
    }
    for (i = 0; i < sizeof line; i++) {
        ostrogosz_ucp_receiver_receive(&receiver, line[i], output, ROOM);
    }
    EXPECT(counts_are(2, 3, 0, UINT32_MAX, 2));
    receiver.line[OSTROGOSZ_UCP_LINE_OPEN] = UINT32_MAX;
    ostrogosz_ucp_receiver_receive(&receiver, 0x00, output, ROOM);
    EXPECT(counts_are(2, 3, 0, UINT32_MAX, 0));
    ostrogosz_ucp_receiver_start(&receiver);
    receiver.line[OSTROGOSZ_UCP_LINE_SKIPPED] = UINT32_MAX;
    ostrogosz_ucp_receiver_receive(&receiver, 0x00, output, ROOM);
    EXPECT(counts_are(0, 0, 0, 0, 0));
}

/* A record that no line leads to, between octets that must stay. */
struct guarded {
    uint8_t before[16];
    uint8_t store[OSTROGOSZ_UCP_STORE];
    uint8_t behind[16];
    uint32_t line_before[4];
    uint32_t line[OSTROGOSZ_UCP_LINE];
    uint32_t line_behind[4];
};

static int guards_hold(const struct guarded *g)
{
    size_t i;
    int hold = 1;

    for (i = 0; i < 16; i++) {
        hold = hold && g->before[i] == HELD && g->behind[i] == HELD;
    }
    for (i = 0; i < 4; i++) {
        hold = hold && g->line_before[i] == 0xA5A5A5A5u;
        hold = hold && g->line_behind[i] == 0xA5A5A5A5u;
    }
    return hold;
}

/* Any record takes any octet, and a flag leaves the one fixed rest. */
static void try_record(uint32_t phase, uint32_t stored)
{
    struct guarded g;
    unsigned octet;
    int held = 1;

    for (octet = 0; octet < 256; octet++) {
        memset(&g, HELD, sizeof g);
        g.line[OSTROGOSZ_UCP_LINE_PHASE] = phase;
        g.line[OSTROGOSZ_UCP_LINE_STORED] = stored;
        ostrogosz_ucp_receive(g.store, g.line, (uint8_t)octet, output, ROOM);
        held = held && guards_hold(&g);
    }
    EXPECT(held);
    ostrogosz_ucp_receive(g.store, g.line, 0x7E, output, ROOM);
    EXPECT(guards_hold(&g) && store_is_zero(g.store));
    EXPECT(g.line[OSTROGOSZ_UCP_LINE_PHASE] == OSTROGOSZ_UCP_PHASE_READING);
    EXPECT(g.line[OSTROGOSZ_UCP_LINE_STORED] == 0);

    memset(&g, HELD, sizeof g);
    ostrogosz_ucp_start(g.store, g.line);
    EXPECT(guards_hold(&g) && store_is_zero(g.store));
}

static void try_records(void)
{
    static const uint32_t phases[] = {0, 1, 2, 3, 4, 5, 255, UINT32_MAX};
    static const uint32_t stored[] = {0,   1,   437,  438,
                                      439, 440, 65536, UINT32_MAX};
    size_t i;
    size_t j;

    for (i = 0; i < sizeof phases / sizeof phases[0]; i++) {
        for (j = 0; j < sizeof stored / sizeof stored[0]; j++) {
            try_record(phases[i], stored[j]);
        }
    }
}

int main(void)
{
    try_frames();
    try_refusals();
    try_longest();
    try_listed_line();
    try_no_pointer();
    try_byte_map();
    try_phases();
    try_counts_that_run_round();
    try_records();
    return finish();
}
