/* MAVLink frames, called as a driver calls them. */
#include <string.h>

#include "emitters.h"
#include "expect.h"
#include "ostrogosz.h"
#include "output.h"
#include "squawks.h"

#define HEAD 6
#define LONGEST OSTROGOSZ_MAVLINK_LONGEST_FRAME

/* A message of every kind, and its header. */
struct message {
    struct ostrogosz_mavlink_header header;
    struct ostrogosz_mavlink_data_stream data_stream;
    struct ostrogosz_mavlink_static static_data;
    struct ostrogosz_mavlink_dynamic dynamic;
    struct ostrogosz_mavlink_status status;
    struct ostrogosz_mavlink_traffic traffic;
};

/* A value of every kind, in which all fields differ from their neighbours. */
static const struct message sample = {
    {0xA1, 0xB2, 0xC3},
    {0x1234, 0x56, 0x78, 0x9A, 0xBC},
    {0x0A0B0C,
     0x1122,
     {'A', 'B', ' ', '1', '2', 'Z', ' ', '9'},
     0,
     19,
     15,
     5,
     17,
     0x25},
    {0x01020304,
     0x05060708,
     -2,
     0x11121314,
     -0x01020304,
     0xF1F2F3F4,
     0x2122,
     0xA3A4,
     -3,
     0x3132,
     -0x0103,
     0x8182,
     7654,
     4,
     0x51,
     0x61,
     0x71},
    {0x1A},
    {0xF0E0D0C0,
     -0x01020304,
     0x11223344,
     -5,
     0x4142,
     0x5152,
     -6,
     0x8384,
     7001,
     1,
     {'c', 'A', 0x00, 'L', 0xFF, 'S', ' ', 'G'},
     0x99,
     0x17,
     0x2C},
};

/* The frame of that value in each kind, and what its check takes in last. */
static const struct kind {
    uint32_t id;
    size_t length;
    uint8_t extra;
    uint8_t frame[LONGEST];
} kinds[] = {
    {66, 14, 148, {0xFE, 0x06, 0xA1, 0xB2, 0xC3, 0x42, 0x34, 0x12, 0x56, 0x78,
                   0x9A, 0xBC, 0x43, 0x1A}},
    {201, 27, 126, {0xFE, 0x13, 0xA1, 0xB2, 0xC3, 0xC9, 0x0C, 0x0B, 0x0A, 0x25,
                    0x22, 0x11, 'A',  'B',  ' ',  '1',  '2',  'Z',  ' ',  '9',
                    0x00, 0x13, 0x0F, 0x05, 0x11, 0x32, 0x55}},
    {202, 50, 7, {0xFE, 0x2A, 0xA1, 0xB2, 0xC3, 0xCA, 0x04, 0x03, 0x02, 0x01,
                  0x08, 0x07, 0x06, 0x05, 0xFE, 0xFF, 0xFF, 0xFF, 0x14, 0x13,
                  0x12, 0x11, 0xFC, 0xFC, 0xFD, 0xFE, 0xF4, 0xF3, 0xF2, 0xF1,
                  0x22, 0x21, 0xA4, 0xA3, 0xFD, 0xFF, 0x32, 0x31, 0xFD, 0xFE,
                  0x82, 0x81, 0xE6, 0x1D, 0x04, 0x51, 0x61, 0x71, 0x6A, 0x04}},
    {203, 9, 85, {0xFE, 0x01, 0xA1, 0xB2, 0xC3, 0xCB, 0x1A, 0x5E, 0x70}},
    {246, 46, 184, {0xFE, 0x26, 0xA1, 0xB2, 0xC3, 0xF6, 0xC0, 0xD0, 0xE0, 0xF0,
                    0xFC, 0xFC, 0xFD, 0xFE, 0x44, 0x33, 0x22, 0x11, 0xFB, 0xFF,
                    0xFF, 0xFF, 0x42, 0x41, 0x52, 0x51, 0xFA, 0xFF, 0x84, 0x83,
                    0x59, 0x1B, 0x01, 'c',  'A',  0x00, 'L',  0xFF, 'S',  ' ',
                    'G',  0x99, 0x17, 0x2C, 0x39, 0xE7}},
};

#define KINDS (sizeof kinds / sizeof kinds[0])

/* The two packets that source document 001 prints, and what they say. Of the
 * static one's alwEncode and the dynamic one's control its text says something
 * else: the octets decide. */

static const uint8_t static_packet[27] = {
    0xFE, 0x13, 0x2F, 0x00, 0x00, 0xC9, 0x34, 0x12, 0xA0, 0x25, 0x00,
    0x00, 'P',  'I',  'N',  'G',  '2',  '0',  '2',  '0',  0x00, 0x12,
    0x01, 0x04, 0x01, 0x11, 0xFA,
};

static const uint8_t dynamic_packet[50] = {
    0xFE, 0x2A, 0x59, 0x00, 0x00, 0xCA, 0x95, 0x74, 0x85, 0x45,
    0x23, 0x13, 0x1F, 0x16, 0x53, 0xD9, 0x45, 0xC8, 0x00, 0x00,
    0x00, 0x00, 0xDD, 0xBB, 0x05, 0x00, 0x27, 0x32, 0x01, 0x00,
    0x6E, 0x00, 0x0F, 0x27, 0x00, 0x00, 0xD4, 0xFE, 0x82, 0x00,
    0x08, 0x00, 0xB0, 0x04, 0x03, 0x05, 0x00, 0x00, 0x0D, 0x57,
};

static const struct ostrogosz_mavlink_static said_static = {
    0xA01234,
    0,
    {'P', 'I', 'N', 'G', '2', '0', '2', '0'},
    0,
    0x12,
    1,
    4,
    1,
    0x25,
};

static const struct ostrogosz_mavlink_dynamic said_dynamic = {
    1166374037,
    371135267,
    -934946477,
    0,
    375773,
    78375,
    110,
    9999,
    0,
    -300,
    130,
    8,
    1200,
    3,
    5,
    0,
    0,
};

/* Writes the part of m that a kind has. */
static struct ostrogosz_written
write_frame(uint32_t id, const struct message *m, size_t room)
{
    uint8_t *to = fresh_output();

    switch (id) {
    case OSTROGOSZ_MAVLINK_ID_DATA_STREAM:
        return ostrogosz_mavlink_write_data_stream(&m->data_stream, &m->header,
                                                   to, room);
    case OSTROGOSZ_MAVLINK_ID_STATIC:
        return ostrogosz_mavlink_write_static(&m->static_data, &m->header, to,
                                              room);
    case OSTROGOSZ_MAVLINK_ID_DYNAMIC:
        return ostrogosz_mavlink_write_dynamic(&m->dynamic, &m->header, to,
                                               room);
    case OSTROGOSZ_MAVLINK_ID_STATUS:
        return ostrogosz_mavlink_write_status(&m->status, &m->header, to, room);
    default:
        return ostrogosz_mavlink_write_traffic(&m->traffic, &m->header, to,
                                               room);
    }
}

/* What the structs hold before a call that reads into them. */
static struct message read;

/* Reads an input as a kind. */
static uint32_t read_as(uint32_t id, const uint8_t *input, size_t length)
{
    switch (id) {
    case OSTROGOSZ_MAVLINK_ID_DATA_STREAM:
        return ostrogosz_mavlink_read_data_stream(input, length, &read.header,
                                                  &read.data_stream);
    case OSTROGOSZ_MAVLINK_ID_STATIC:
        return ostrogosz_mavlink_read_static(input, length, &read.header,
                                             &read.static_data);
    case OSTROGOSZ_MAVLINK_ID_DYNAMIC:
        return ostrogosz_mavlink_read_dynamic(input, length, &read.header,
                                              &read.dynamic);
    case OSTROGOSZ_MAVLINK_ID_STATUS:
        return ostrogosz_mavlink_read_status(input, length, &read.header,
                                             &read.status);
    default:
        return ostrogosz_mavlink_read_traffic(input, length, &read.header,
                                              &read.traffic);
    }
}

/* The header and the part of m that a kind has, its padding zero, among octets
 * that no call changes. Fields have no padding between them but at the end. */
static void put_part(struct message *to, uint32_t id, const struct message *m)
{
    to->header = m->header;
    switch (id) {
    case OSTROGOSZ_MAVLINK_ID_DATA_STREAM:
        to->data_stream = m->data_stream;
        break;
    case OSTROGOSZ_MAVLINK_ID_STATIC:
        to->static_data = m->static_data;
        break;
    case OSTROGOSZ_MAVLINK_ID_DYNAMIC:
        memset(&to->dynamic, 0, sizeof to->dynamic);
        memcpy(&to->dynamic, &m->dynamic, 42);
        break;
    case OSTROGOSZ_MAVLINK_ID_STATUS:
        to->status = m->status;
        break;
    default:
        memset(&to->traffic, 0, sizeof to->traffic);
        memcpy(&to->traffic, &m->traffic, 38);
        break;
    }
}

/* The input reads as that part of m, whose frame has this length: every octet
 * of the structs is written, padding too, and no other. */
static int reads(const uint8_t *input, size_t input_length, size_t length,
                 const struct message *m)
{
    struct ostrogosz_mavlink_id id =
        ostrogosz_mavlink_read_id(input, input_length);
    struct message due;

    memset(&due, HELD, sizeof due);
    put_part(&due, input[5], m);
    memset(&read, HELD, sizeof read);
    return id.refusal == 0 && id.id == input[5] && id.used == length &&
           read_as(input[5], input, input_length) == 0 &&
           memcmp(&read, &due, sizeof read) == 0;
}

/* A kind's reader refuses the input with this number, and changes no octet. */
static int refused_as(uint32_t kind, const uint8_t *input, size_t length,
                      uint32_t number)
{
    struct message due;

    memset(&due, HELD, sizeof due);
    memset(&read, HELD, sizeof read);
    return read_as(kind, input, length) == number &&
           memcmp(&read, &due, sizeof read) == 0;
}

/* The reader of a kind refuses the input, and so does the call that tells the
 * ID, unless it is for check or fields. */
static int read_refused(uint32_t kind, const uint8_t *input, size_t length,
                        uint32_t number)
{
    struct ostrogosz_mavlink_id id = ostrogosz_mavlink_read_id(input, length);
    int told = number < 24 ? id.refusal == number && id.id == 0 && id.used == 0
                           : id.refusal == 0 && id.id == kind;

    return told && refused_as(kind, input, length, number);
}

/* Each way, with octets behind it, and in room that is generous, exact, one
 * short and none. */
static void try_frame(const uint8_t *frame, size_t length,
                      const struct message *m)
{
    uint8_t longer[LONGEST + 1];
    uint32_t id = frame[5];

    memcpy(longer, frame, length);
    longer[length] = 0xFE;
    EXPECT(reads(frame, length, length, m));
    EXPECT(reads(longer, length + 1, length, m));
    EXPECT(wrote(write_frame(id, m, ROOM), frame, length));
    EXPECT(wrote(write_frame(id, m, length), frame, length));
    EXPECT(refused(write_frame(id, m, length - 1), 8));
    EXPECT(refused(write_frame(id, m, 0), 8));
}

static void try_frames(void)
{
    size_t i;

    for (i = 0; i < KINDS; i++) {
        EXPECT(kinds[i].id == kinds[i].frame[5]);
        try_frame(kinds[i].frame, kinds[i].length, &sample);
    }
}

static void try_packets(void)
{
    struct message m;

    memset(&m, 0, sizeof m);
    m.static_data = said_static;
    m.dynamic = said_dynamic;
    m.header.sequence = 0x2F;
    try_frame(static_packet, sizeof static_packet, &m);
    m.header.sequence = 0x59;
    try_frame(dynamic_packet, sizeof dynamic_packet, &m);
}

/* Every status, and its failures. */
static void try_statuses(void)
{
    struct ostrogosz_mavlink_failures found;
    struct ostrogosz_mavlink_status status;
    unsigned number, bit, failures, lowest;
    int held = 1;

    for (number = 0; number < 256; number++) {
        failures = 0;
        lowest = 0;
        for (bit = 4; bit >= 1; bit--) {
            if (number >> bit & 1) {
                failures++;
                lowest = bit;
            }
        }
        status.status = (uint8_t)number;
        (void)ostrogosz_mavlink_write_status(&status, &sample.header,
                                             fresh_output(), 9);
        found = ostrogosz_mavlink_count_failures(status.status);
        held = held && read_as(203, output, 9) == 0 &&
               read.status.status == number && found.count == failures &&
               found.lowest == lowest;
    }
    EXPECT(held);
}

/* 25, whatever the room: it is tested before 8. */
static int field_refused(uint32_t id, const struct message *m)
{
    return refused(write_frame(id, m, ROOM), 25) &&
           refused(write_frame(id, m, 0), 25);
}

/* A field of a kind: first a value that is still in range. */
#define TRY_FIELD(id, field, fits, wide)                                     \
    do {                                                                     \
        struct message m = sample;                                           \
        m.field = fits;                                                      \
        EXPECT(write_frame(id, &m, ROOM).refusal == 0);                      \
        m.field = wide;                                                      \
        EXPECT(field_refused(id, &m));                                       \
    } while (0)

static void try_fields(void)
{
    TRY_FIELD(201, static_data.icao, 0xFFFFFF, 0x1000000);
    TRY_FIELD(201, static_data.callsign[0], ' ', 'a');
    TRY_FIELD(201, static_data.callsign[7], '0', 0);
    TRY_FIELD(201, static_data.capability, 0, 1);
    TRY_FIELD(201, static_data.emitter, 0, 22);
    TRY_FIELD(201, static_data.alw_encode, 0, 16);
    TRY_FIELD(201, static_data.gps_lat_offs, 7, 8);
    TRY_FIELD(201, static_data.gps_lon_offs, 31, 32);
    TRY_FIELD(202, dynamic.fix_type, 5, 6);
}

/* The check as document 001 adds an octet to it. */
static uint16_t next_check(uint16_t check, uint8_t octet)
{
    uint8_t mixed = (uint8_t)(octet ^ (check & 0xFF));

    mixed = (uint8_t)(mixed ^ mixed << 4);
    return (uint16_t)(check >> 8 ^ mixed << 8 ^ mixed << 3 ^ mixed >> 4);
}

/* Puts the right check at the end of a frame. */
static void seal(uint8_t *frame, size_t length, uint8_t extra)
{
    uint16_t check = 0xFFFF;
    size_t i;

    for (i = 1; i < length - 2; i++) {
        check = next_check(check, frame[i]);
    }
    check = next_check(check, extra);
    frame[length - 2] = (uint8_t)(check & 0xFF);
    frame[length - 1] = (uint8_t)(check >> 8);
}

/* The frame of 202 or 246 with this squawk, which m gets too. */
static uint8_t *with_squawk(size_t kind, unsigned squawk, struct message *m)
{
    static uint8_t frame[LONGEST];
    size_t place = HEAD + (kinds[kind].id == 202 ? 36 : 24);

    memcpy(frame, kinds[kind].frame, sizeof frame);
    frame[place] = (uint8_t)(squawk & 0xFF);
    frame[place + 1] = (uint8_t)(squawk >> 8);
    seal(frame, kinds[kind].length, kinds[kind].extra);
    m->dynamic.squawk = m->traffic.squawk = (uint16_t)squawk;
    return frame;
}

/* The frame of 201 or 246 with this emitter, which m gets too. */
static uint8_t *with_emitter(size_t kind, unsigned emitter, struct message *m)
{
    static uint8_t frame[LONGEST];

    memcpy(frame, kinds[kind].frame, sizeof frame);
    frame[HEAD + (kinds[kind].id == 201 ? 15 : 36)] = (uint8_t)emitter;
    seal(frame, kinds[kind].length, kinds[kind].extra);
    m->static_data.emitter = m->traffic.emitter_type = (uint8_t)emitter;
    return frame;
}

/* Each way. */
static int takes(size_t kind, const uint8_t *frame, const struct message *m)
{
    size_t length = kinds[kind].length;

    return reads(frame, length, length, m) &&
           wrote(write_frame(kinds[kind].id, m, length), frame, length);
}

/* 25, and behind a wrong check 24. */
static int refuses(size_t kind, uint8_t *frame, const struct message *m)
{
    uint32_t id = kinds[kind].id;
    size_t length = kinds[kind].length;
    int held = read_refused(id, frame, length, 25) && field_refused(id, m);

    frame[length - 1] ^= 1;
    return held && read_refused(id, frame, length, 24);
}

static int takes_squawk(size_t kind, unsigned squawk)
{
    struct message m = sample;

    return takes(kind, with_squawk(kind, squawk, &m), &m);
}

static int refuses_squawk(size_t kind, unsigned squawk)
{
    struct message m = sample;

    return refuses(kind, with_squawk(kind, squawk, &m), &m);
}

static int takes_emitter(size_t kind, unsigned emitter)
{
    struct message m = sample;

    return takes(kind, with_emitter(kind, emitter, &m), &m);
}

static int refuses_emitter(size_t kind, unsigned emitter)
{
    struct message m = sample;

    return refuses(kind, with_emitter(kind, emitter, &m), &m);
}

/* 65535 in a traffic report alone. */
static void try_both_squawks(void)
{
    try_squawks(2, takes_squawk, refuses_squawk);
    EXPECT(refuses_squawk(2, 65535));
    try_squawks(4, takes_squawk, refuses_squawk);
    EXPECT(takes_squawk(4, 65535));
}

/* A frame with one octet changed is refused: with its check as it was, and with
 * the one that is right then. */
static int changed_refused(size_t kind, size_t place, uint8_t octet,
                           uint32_t before, uint32_t sealed)
{
    uint8_t frame[LONGEST];
    size_t length = kinds[kind].length;
    int held;

    memcpy(frame, kinds[kind].frame, sizeof frame);
    frame[place] = octet;
    held = read_refused(kinds[kind].id, frame, length, before);
    seal(frame, length, kinds[kind].extra);
    return held && read_refused(kinds[kind].id, frame, length, sealed);
}

/* In the order of the tests. */
static void try_read_refusals(void)
{
    size_t i, length;

    for (i = 0; i < KINDS; i++) {
        const uint8_t *frame = kinds[i].frame;
        uint32_t id = kinds[i].id;
        int held = 1;

        for (length = 0; length < kinds[i].length; length++) {
            held = held && read_refused(id, frame, length, 20);
        }
        EXPECT(held);
        EXPECT(changed_refused(i, 0, 0xFD, 21, 21));
        EXPECT(changed_refused(i, 5, 204, 22, 22));
        EXPECT(changed_refused(i, 1, 2, 23, 23));
        EXPECT(read_refused(id, frame + 1, 1, OSTROGOSZ_REFUSAL_MAVLINK_START));
    }
}

/* A kind's reader takes no other kind's frame. */
static void try_other_kinds(void)
{
    size_t i, j;
    int held = 1;

    for (i = 0; i < KINDS; i++) {
        for (j = 0; j < KINDS; j++) {
            held = held && (i == j || refused_as(kinds[i].id, kinds[j].frame,
                                                 kinds[j].length, 22));
        }
    }
    EXPECT(held);
}

static int check_refused(size_t kind, size_t place)
{
    uint8_t frame[LONGEST];

    memcpy(frame, kinds[kind].frame, sizeof frame);
    frame[place] ^= 1;
    return read_refused(kinds[kind].id, frame, kinds[kind].length,
                        OSTROGOSZ_REFUSAL_MAVLINK_WRONG_CHECK);
}

/* Every octet that the check guards, and the check itself. */
static void try_checks(void)
{
    size_t i, place;

    for (i = 0; i < KINDS; i++) {
        int held = 1;

        for (place = 2; place < kinds[i].length; place++) {
            held = held && (place == 5 || check_refused(i, place));
        }
        EXPECT(held);
    }
}

/* A wrong check is found before a field outside its range. */
static void try_read_fields(void)
{
    EXPECT(changed_refused(1, HEAD + 6, 'a', 24, 25));   /* 201: callsign */
    EXPECT(changed_refused(1, HEAD + 13, '_', 24, 25));  /* 201: callsign */
    EXPECT(changed_refused(1, HEAD + 14, 0x10, 24, 25)); /* 201: capability */
    EXPECT(changed_refused(1, HEAD + 15, 22, 24, 25));   /* 201: emitter */
    EXPECT(changed_refused(1, HEAD + 16, 16, 24, 25));   /* 201: alw_encode */
    EXPECT(changed_refused(1, HEAD + 17, 8, 24, 25));    /* 201: gps_lat_offs */
    EXPECT(changed_refused(1, HEAD + 18, 32, 24, 25));   /* 201: gps_lon_offs */
    EXPECT(changed_refused(2, HEAD + 37, 0x1F, 24, 25)); /* 202: squawk */
    EXPECT(changed_refused(2, HEAD + 38, 6, 24, 25));    /* 202: fix_type */
    EXPECT(changed_refused(4, HEAD + 25, 0x1F, 24, 25)); /* 246: squawk */
}

/* Where a length is 0 the pointer is never followed. */
static void try_no_pointer(void)
{
    struct ostrogosz_written written;

    EXPECT(read_refused(202, NULL, 0, OSTROGOSZ_REFUSAL_MAVLINK_SHORT));
    written =
        ostrogosz_mavlink_write_status(&sample.status, &sample.header, NULL, 0);
    EXPECT(written.refusal == OSTROGOSZ_REFUSAL_OUTPUT_LENGTH &&
           written.length == 0);
}

int main(void)
{
    try_frames();
    try_packets();
    try_statuses();
    try_fields();
    try_both_squawks();
    try_ranged_emitters(1, takes_emitter, refuses_emitter);
    try_carried_emitters(4, takes_emitter);
    try_read_refusals();
    try_other_kinds();
    try_checks();
    try_read_fields();
    try_no_pointer();
    return finish();
}
