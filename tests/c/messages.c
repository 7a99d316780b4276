/* The messages of the UCP line, called as a driver calls them. */
#include <string.h>

#include "emitters.h"
#include "expect.h"
#include "ostrogosz.h"
#include "output.h"
#include "squawks.h"

#define PAYLOAD OSTROGOSZ_UCP_UPLINK_PAYLOAD

/* A message of every kind. */
struct message {
    struct ostrogosz_ucp_heartbeat heartbeat;
    struct ostrogosz_ucp_report report; /* 10 and 20 */
    struct ostrogosz_ucp_geometric_altitude geometric_altitude;
    struct ostrogosz_ucp_request request;
    struct ostrogosz_ucp_control control;
    struct ostrogosz_ucp_initialization initialization;
    uint8_t payload[PAYLOAD];
};

/* A value of every kind, in which all fields differ from their neighbours. Not
 * constant for the payload, which is filled in. */
static struct message sample = {
    {0x11, 0x22, 0x4433, 0x5566},
    {1,
     2,
     0x030405,
     0x060708,
     -2,
     0x9AB,
     0xC,
     0xD,
     0xE,
     0x123,
     -3,
     0x45,
     0x67,
     {'c', 'A', 0x00, 'L', 0xFF, 'S', ' ', 'G'},
     8,
     9},
    {-5, 0x1234},
    {0x2B},
    {1,
     0,
     1,
     0,
     1,
     2,
     1,
     0x01020304,
     7654,
     9,
     {'A', 'B', '1', '2', 'Z', ' ', ' ', ' '}},
    {7,
     0x010203,
     19,
     {'N', '8', ' ', '5', 'V', ' ', ' ', '1'},
     0x33,
     15,
     5,
     17},
    {0},
};

/* The body of that value in each kind but the uplink. */
static const struct kind {
    uint32_t id;
    size_t length;
    uint8_t body[28];
} kinds[] = {
    {0, 7, {0x00, 0x11, 0x22, 0x33, 0x44, 0x55, 0x66}},
    {10, 28, {0x0A, 0x12, 0x03, 0x04, 0x05, 0x06, 0x07, 0x08, 0xFF, 0xFF,
              0xFE, 0x9A, 0xBC, 0xDE, 0x12, 0x3F, 0xFD, 0x45, 0x67, 'c',
              'A',  0x00, 'L',  0xFF, 'S',  ' ',  'G',  0x89}},
    {11, 5, {0x0B, 0xFF, 0xFB, 0x12, 0x34}},
    {20, 28, {0x14, 0x12, 0x03, 0x04, 0x05, 0x06, 0x07, 0x08, 0xFF, 0xFF,
              0xFE, 0x9A, 0xBC, 0xDE, 0x12, 0x3F, 0xFD, 0x45, 0x67, 'c',
              'A',  0x00, 'L',  0xFF, 'S',  ' ',  'G',  0x89}},
    {44, 3, {0x2C, 0x02, 0x2B}},
    {45, 18, {0x2D, 0x01, 0xAD, 0x04, 0x03, 0x02, 0x01, 0xE6, 0x1D, 0x09,
              'A',  'B',  '1',  '2',  'Z',  ' ',  ' ',  ' '}},
    {117, 19, {0x75, 0x41, 0x01, 0x07, 0x03, 0x02, 0x01, 0x13, 'N', '8',
               ' ',  '5',  'V',  ' ',  ' ',  '1',  0x33, 0x0F, 0xB1}},
};

#define KINDS (sizeof kinds / sizeof kinds[0])

/* An uplink's body, and one octet more. */
static uint8_t uplink[1 + PAYLOAD + 1];

static void fill_uplink(void)
{
    size_t i;

    for (i = 0; i < sizeof uplink; i++) {
        uplink[i] = (uint8_t)(7 * (i + 1) + i / 256);
    }
    memcpy(sample.payload, uplink + 1, PAYLOAD);
}

/* Writes the part of m that a kind has. */
static struct ostrogosz_written write_body(uint32_t id,
                                           const struct message *m,
                                           size_t room)
{
    uint8_t *to = fresh_output();

    switch (id) {
    case OSTROGOSZ_UCP_ID_HEARTBEAT:
        return ostrogosz_ucp_write_heartbeat(&m->heartbeat, to, room);
    case OSTROGOSZ_UCP_ID_UPLINK:
        return ostrogosz_ucp_write_uplink(uplink + 1, PAYLOAD, to, room);
    case OSTROGOSZ_UCP_ID_OWNSHIP:
        return ostrogosz_ucp_write_ownship(&m->report, to, room);
    case OSTROGOSZ_UCP_ID_GEOMETRIC_ALTITUDE:
        return ostrogosz_ucp_write_geometric_altitude(&m->geometric_altitude,
                                                      to, room);
    case OSTROGOSZ_UCP_ID_TRAFFIC:
        return ostrogosz_ucp_write_traffic(&m->report, to, room);
    case OSTROGOSZ_UCP_ID_REQUEST:
        return ostrogosz_ucp_write_request(&m->request, to, room);
    case OSTROGOSZ_UCP_ID_CONTROL:
        return ostrogosz_ucp_write_control(&m->control, to, room);
    default:
        return ostrogosz_ucp_write_initialization(&m->initialization, to, room);
    }
}

/* Sends the part of m that a kind has. */
static struct ostrogosz_written send_frame(uint32_t id,
                                           const struct message *m)
{
    uint8_t *to = fresh_output();

    switch (id) {
    case OSTROGOSZ_UCP_ID_HEARTBEAT:
        return ostrogosz_ucp_send_heartbeat(&m->heartbeat, to);
    case OSTROGOSZ_UCP_ID_UPLINK:
        return ostrogosz_ucp_send_uplink(uplink + 1, PAYLOAD, to);
    case OSTROGOSZ_UCP_ID_OWNSHIP:
        return ostrogosz_ucp_send_ownship(&m->report, to);
    case OSTROGOSZ_UCP_ID_GEOMETRIC_ALTITUDE:
        return ostrogosz_ucp_send_geometric_altitude(&m->geometric_altitude,
                                                     to);
    case OSTROGOSZ_UCP_ID_TRAFFIC:
        return ostrogosz_ucp_send_traffic(&m->report, to);
    case OSTROGOSZ_UCP_ID_REQUEST:
        return ostrogosz_ucp_send_request(&m->request, to);
    case OSTROGOSZ_UCP_ID_CONTROL:
        return ostrogosz_ucp_send_control(&m->control, to);
    default:
        return ostrogosz_ucp_send_initialization(&m->initialization, to);
    }
}

/* What a struct holds before a call that reads into it. */
static struct message read;

/* Reads a body as a kind. */
static uint32_t read_as(uint32_t id, const uint8_t *body, size_t length)
{
    switch (id) {
    case OSTROGOSZ_UCP_ID_HEARTBEAT:
        return ostrogosz_ucp_read_heartbeat(body, length, &read.heartbeat);
    case OSTROGOSZ_UCP_ID_UPLINK:
        return ostrogosz_ucp_read_uplink(body, length, read.payload);
    case OSTROGOSZ_UCP_ID_OWNSHIP:
        return ostrogosz_ucp_read_ownship(body, length, &read.report);
    case OSTROGOSZ_UCP_ID_GEOMETRIC_ALTITUDE:
        return ostrogosz_ucp_read_geometric_altitude(body, length,
                                                     &read.geometric_altitude);
    case OSTROGOSZ_UCP_ID_TRAFFIC:
        return ostrogosz_ucp_read_traffic(body, length, &read.report);
    case OSTROGOSZ_UCP_ID_REQUEST:
        return ostrogosz_ucp_read_request(body, length, &read.request);
    case OSTROGOSZ_UCP_ID_CONTROL:
        return ostrogosz_ucp_read_control(body, length, &read.control);
    default:
        return ostrogosz_ucp_read_initialization(body, length,
                                                 &read.initialization);
    }
}

/* The part of m that a kind has, its padding zero, among octets that no call
 * changes. */
static void put_part(struct message *to, uint32_t id, const struct message *m)
{
    switch (id) {
    case OSTROGOSZ_UCP_ID_HEARTBEAT:
        to->heartbeat = m->heartbeat;
        break;
    case OSTROGOSZ_UCP_ID_UPLINK:
        memcpy(to->payload, m->payload, PAYLOAD);
        break;
    case OSTROGOSZ_UCP_ID_OWNSHIP:
    case OSTROGOSZ_UCP_ID_TRAFFIC:
        memset(&to->report, 0, sizeof to->report);
        to->report.alert = m->report.alert;
        to->report.address_type = m->report.address_type;
        to->report.address = m->report.address;
        to->report.latitude = m->report.latitude;
        to->report.longitude = m->report.longitude;
        to->report.altitude = m->report.altitude;
        to->report.miscellaneous = m->report.miscellaneous;
        to->report.nic = m->report.nic;
        to->report.nacp = m->report.nacp;
        to->report.speed = m->report.speed;
        to->report.vertical_rate = m->report.vertical_rate;
        to->report.track = m->report.track;
        to->report.emitter = m->report.emitter;
        memcpy(to->report.callsign, m->report.callsign, 8);
        to->report.emergency = m->report.emergency;
        to->report.spare = m->report.spare;
        break;
    case OSTROGOSZ_UCP_ID_GEOMETRIC_ALTITUDE:
        to->geometric_altitude = m->geometric_altitude;
        break;
    case OSTROGOSZ_UCP_ID_REQUEST:
        to->request = m->request;
        break;
    case OSTROGOSZ_UCP_ID_CONTROL:
        memset(&to->control, 0, sizeof to->control);
        to->control.es_enabled = m->control.es_enabled;
        to->control.mode_s = m->control.mode_s;
        to->control.mode_c = m->control.mode_c;
        to->control.mode_a = m->control.mode_a;
        to->control.ident = m->control.ident;
        to->control.air_ground = m->control.air_ground;
        to->control.baro_checked = m->control.baro_checked;
        to->control.altitude = m->control.altitude;
        to->control.squawk = m->control.squawk;
        to->control.emergency = m->control.emergency;
        memcpy(to->control.identity, m->control.identity, 8);
        break;
    default:
        memset(&to->initialization, 0, sizeof to->initialization);
        to->initialization.version = m->initialization.version;
        to->initialization.address = m->initialization.address;
        to->initialization.emitter = m->initialization.emitter;
        memcpy(to->initialization.callsign, m->initialization.callsign, 8);
        to->initialization.stall_speed = m->initialization.stall_speed;
        to->initialization.size = m->initialization.size;
        to->initialization.lateral = m->initialization.lateral;
        to->initialization.longitudinal = m->initialization.longitudinal;
        break;
    }
}

/* The body reads as the part of m that its kind has: every octet of the struct
 * is written, padding too, and no other. */
static int reads(const uint8_t *body, size_t length, const struct message *m)
{
    struct message due;
    struct ostrogosz_ucp_id id = ostrogosz_ucp_read_id(body, length);

    memset(&due, HELD, sizeof due);
    put_part(&due, body[0], m);
    memset(&read, HELD, sizeof read);
    return id.refusal == 0 && id.id == body[0] &&
           read_as(body[0], body, length) == 0 &&
           memcmp(&read, &due, sizeof read) == 0;
}

/* A kind's reader refuses the body with this number, and changes no octet. */
static int refused_as(uint32_t id, const uint8_t *body, size_t length,
                      uint32_t number)
{
    struct message due;

    memset(&due, HELD, sizeof due);
    memset(&read, HELD, sizeof read);
    return read_as(id, body, length) == number &&
           memcmp(&read, &due, sizeof read) == 0;
}

/* The reader of the body's own kind refuses it; every kind's does where the ID
 * is unknown. */
static int read_refused(const uint8_t *body, size_t length, uint32_t number)
{
    struct ostrogosz_ucp_id id = ostrogosz_ucp_read_id(body, length);

    if (number == OSTROGOSZ_REFUSAL_UNKNOWN_ID) {
        return id.refusal == number && id.id == 0 &&
               refused_as(0, body, length, number) &&
               refused_as(7, body, length, number) &&
               refused_as(20, body, length, number) &&
               refused_as(45, body, length, number);
    }
    return id.refusal == 0 && id.id == body[0] &&
           refused_as(body[0], body, length, number);
}

/* What is sent is the frame of the body. */
static int sends(uint32_t id, const struct message *m,
                 const uint8_t *body, size_t length)
{
    uint8_t frame[OSTROGOSZ_UCP_LONGEST_FRAME];
    struct ostrogosz_written due;

    due = ostrogosz_ucp_write_frame(body, length, frame, sizeof frame);
    return due.refusal == 0 && wrote(send_frame(id, m), frame, due.length);
}

/* Each way, and in room that is generous, exact, one short and none. */
static void try_body(uint32_t id, const uint8_t *body, size_t length)
{
    EXPECT(reads(body, length, &sample));
    EXPECT(wrote(write_body(id, &sample, ROOM), body, length));
    EXPECT(wrote(write_body(id, &sample, length), body, length));
    EXPECT(refused(write_body(id, &sample, length - 1), 8));
    EXPECT(refused(write_body(id, &sample, 0), 8));
    EXPECT(sends(id, &sample, body, length));
}

static void try_bodies(void)
{
    size_t i;

    for (i = 0; i < KINDS; i++) {
        try_body(kinds[i].id, kinds[i].body, kinds[i].length);
    }
    fill_uplink();
    EXPECT(uplink[0] == OSTROGOSZ_UCP_ID_UPLINK);
    try_body(OSTROGOSZ_UCP_ID_UPLINK, uplink, 1 + PAYLOAD);
}

/* A kind's reader takes no other kind's body, whatever its length. */
static void try_other_kinds(void)
{
    size_t i;
    size_t j;
    int held = 1;

    for (i = 0; i < KINDS; i++) {
        for (j = 0; j < KINDS; j++) {
            held = held && (i == j || refused_as(kinds[i].id, kinds[j].body,
                                                 kinds[j].length, 10));
        }
        held = held && refused_as(kinds[i].id, uplink, 1 + PAYLOAD, 10);
        held = held && refused_as(7, kinds[i].body, kinds[i].length, 10);
    }
    EXPECT(held);
}

/* Any octet but 0 is a yes. */
static void try_yes(void)
{
    struct message m = sample;
    unsigned yes;
    int held = 1;

    for (yes = 1; yes < 256; yes++) {
        m.control.es_enabled = m.control.mode_c = (uint8_t)yes;
        m.control.ident = m.control.baro_checked = (uint8_t)(256 - yes);
        held = held && wrote(write_body(45, &m, 18), kinds[5].body, 18);
        held = held && sends(45, &m, kinds[5].body, 18);
    }
    EXPECT(held);
}

/* Every octet of flags of a Control, each way. */
static void try_flags(void)
{
    uint8_t body[18];
    struct message m = sample;
    unsigned flags;
    int held = 1;

    memcpy(body, kinds[5].body, sizeof body);
    for (flags = 0; flags < 256; flags++) {
        body[2] = (uint8_t)flags;
        m.control.es_enabled = (flags & 0x80) != 0;
        m.control.mode_s = (flags & 0x40) != 0;
        m.control.mode_c = (flags & 0x20) != 0;
        m.control.mode_a = (flags & 0x10) != 0;
        m.control.ident = (flags & 0x08) != 0;
        m.control.air_ground = (uint8_t)(flags >> 1 & 3);
        m.control.baro_checked = (flags & 0x01) != 0;
        held = held && reads(body, sizeof body, &m);
        held = held && wrote(write_body(45, &m, 18), body, sizeof body);
    }
    EXPECT(held);
}

/* 13, whatever the room: it is tested before 8. */
static int field_refused(uint32_t id, const struct message *m)
{
    return refused(write_body(id, m, ROOM), 13) &&
           refused(write_body(id, m, 0), 13) && refused(send_frame(id, m), 13);
}

/* A field of a report, Ownship and Traffic: first a value that still fits. */
#define TRY_REPORT(field, fits, wide)                                        \
    do {                                                                     \
        struct message m = sample;                                 \
        m.report.field = fits;                                               \
        EXPECT(write_body(10, &m, 28).refusal == 0);                         \
        EXPECT(write_body(20, &m, 28).refusal == 0);                         \
        m.report.field = wide;                                               \
        EXPECT(field_refused(10, &m) && field_refused(20, &m));              \
    } while (0)

static void try_report_fields(void)
{
    TRY_REPORT(alert, 15, 16);
    TRY_REPORT(address_type, 15, 16);
    TRY_REPORT(address, 0xFFFFFF, 0x1000000);
    TRY_REPORT(latitude, 0x7FFFFF, 0x800000);
    TRY_REPORT(latitude, -0x800000, -0x800001);
    TRY_REPORT(longitude, 0x7FFFFF, 0x800000);
    TRY_REPORT(longitude, -0x800000, -0x800001);
    TRY_REPORT(altitude, 0xFFF, 0x1000);
    TRY_REPORT(miscellaneous, 15, 16);
    TRY_REPORT(nic, 15, 16);
    TRY_REPORT(nacp, 15, 16);
    TRY_REPORT(speed, 0xFFF, 0x1000);
    TRY_REPORT(vertical_rate, 2047, 2048);
    TRY_REPORT(vertical_rate, -2048, -2049);
    TRY_REPORT(emergency, 15, 16);
    TRY_REPORT(spare, 15, 16);
}

/* A field of another kind: first a value that still fits. */
#define TRY_FIELD(id, field, fits, wide)                                     \
    do {                                                                     \
        struct message m = sample;                                 \
        m.field = fits;                                                      \
        EXPECT(write_body(id, &m, ROOM).refusal == 0);                       \
        m.field = wide;                                                      \
        EXPECT(field_refused(id, &m));                                       \
    } while (0)

static void try_other_fields(void)
{
    TRY_FIELD(45, control.air_ground, 3, 4);
    TRY_FIELD(45, control.identity[4], ' ', '_');
    /* A space inside, before the Z. */
    TRY_FIELD(45, control.identity[3], 'A', ' ');
    TRY_FIELD(117, initialization.address, 0xFFFFFF, 0x1000000);
    TRY_FIELD(117, initialization.emitter, 0, 22);
    TRY_FIELD(117, initialization.callsign[7], ' ', 0);
    TRY_FIELD(117, initialization.size, 0, 16);
    TRY_FIELD(117, initialization.lateral, 7, 8);
    TRY_FIELD(117, initialization.longitudinal, 31, 32);
}

/* The body with this squawk, which m gets too. */
static uint8_t *with_squawk(size_t kind, unsigned squawk, struct message *m)
{
    static uint8_t body[28];

    memcpy(body, kinds[kind].body, sizeof body);
    body[7] = (uint8_t)(squawk & 0xFF);
    body[8] = (uint8_t)(squawk >> 8);
    m->control.squawk = (uint16_t)squawk;
    return body;
}

/* The body of 10, 20 or 117 with this emitter, which m gets too. */
static uint8_t *with_emitter(size_t kind, unsigned emitter, struct message *m)
{
    static uint8_t body[28];

    memcpy(body, kinds[kind].body, sizeof body);
    body[kinds[kind].id == 117 ? 7 : 18] = (uint8_t)emitter;
    m->report.emitter = m->initialization.emitter = (uint8_t)emitter;
    return body;
}

/* Each way. */
static int takes(size_t kind, const uint8_t *body, const struct message *m)
{
    uint32_t id = kinds[kind].id;
    size_t length = kinds[kind].length;

    return reads(body, length, m) &&
           wrote(write_body(id, m, length), body, length) &&
           sends(id, m, body, length);
}

/* 13, behind a wrong version or signature 12, and cut short 11. */
static int refuses(size_t kind, uint8_t *body, const struct message *m)
{
    size_t length = kinds[kind].length;
    int held =
        read_refused(body, length, 13) && field_refused(kinds[kind].id, m);

    body[1] = 2;
    return held && read_refused(body, length, 12) &&
           read_refused(body, length - 1, 11);
}

static int takes_squawk(size_t kind, unsigned squawk)
{
    struct message m = sample;

    return takes(kind, with_squawk(kind, squawk, &m), &m);
}

static int refuses_squawk(size_t kind, unsigned squawk)
{
    struct message m = sample;

    return refuses(kind, with_squawk(kind, squawk, &m), &m);
}

static int takes_emitter(size_t kind, unsigned emitter)
{
    struct message m = sample;

    return takes(kind, with_emitter(kind, emitter, &m), &m);
}

static int refuses_emitter(size_t kind, unsigned emitter)
{
    struct message m = sample;

    return refuses(kind, with_emitter(kind, emitter, &m), &m);
}

/* A payload has 435 octets, no more and no fewer. */
static void try_payloads(void)
{
    static const size_t lengths[] = {0, 1, PAYLOAD - 1, PAYLOAD + 1};
    struct ostrogosz_written written;
    size_t i;

    for (i = 0; i < sizeof lengths / sizeof lengths[0]; i++) {
        written = ostrogosz_ucp_write_uplink(uplink, lengths[i], fresh_output(),
                                             0);
        EXPECT(refused(written, 13));
        written = ostrogosz_ucp_write_uplink(uplink, lengths[i], output, ROOM);
        EXPECT(refused(written, 13));
        written = ostrogosz_ucp_send_uplink(uplink, lengths[i], output);
        EXPECT(refused(written, 13));
    }
}

/* A body with one octet changed. */
static int changed_refused(size_t kind, size_t place, uint8_t octet,
                           uint32_t number)
{
    uint8_t body[28];

    memcpy(body, kinds[kind].body, sizeof body);
    body[place] = octet;
    return read_refused(body, kinds[kind].length, number);
}

static void try_read_refusals(void)
{
    size_t i;

    for (i = 0; i < KINDS; i++) {
        EXPECT(changed_refused(i, 0, 1, OSTROGOSZ_REFUSAL_UNKNOWN_ID));
        EXPECT(read_refused(kinds[i].body, kinds[i].length - 1, 11));
        EXPECT(read_refused(kinds[i].body, 1, 11));
    }
    EXPECT(read_refused(kinds[0].body, kinds[0].length + 1, 11));
    EXPECT(read_refused(uplink, PAYLOAD, OSTROGOSZ_REFUSAL_MESSAGE_LENGTH));
    EXPECT(read_refused(uplink, sizeof uplink, 11));
    EXPECT(changed_refused(4, 1, 1, OSTROGOSZ_REFUSAL_FIXED)); /* 44: version */
    EXPECT(changed_refused(5, 1, 2, 12));                      /* 45: version */
    EXPECT(changed_refused(6, 1, 64, 12)); /* 117: signature */
    EXPECT(changed_refused(6, 2, 2, 12));  /* 117: subtype */
    EXPECT(changed_refused(5, 8, 0x1F, OSTROGOSZ_REFUSAL_FIELD)); /* squawk */
    EXPECT(changed_refused(5, 13, ' ', 13)); /* identity: space inside */
    EXPECT(changed_refused(5, 17, 'a', 13)); /* identity: letter */
    EXPECT(changed_refused(6, 7, 22, 13));   /* emitter */
    EXPECT(changed_refused(6, 8, 'n', 13));  /* callsign */
    EXPECT(changed_refused(6, 17, 16, 13));  /* size */
}

/* Where a length is 0 the pointer is never followed. */
static void try_no_pointer(void)
{
    struct ostrogosz_written written;

    EXPECT(read_refused(NULL, 0, OSTROGOSZ_REFUSAL_UNKNOWN_ID));
    written = ostrogosz_ucp_write_request(&sample.request, NULL, 0);
    EXPECT(written.refusal == 8 && written.length == 0);
    written = ostrogosz_ucp_write_uplink(uplink, PAYLOAD, NULL, 0);
    EXPECT(written.refusal == 8 && written.length == 0);
    written = ostrogosz_ucp_write_uplink(NULL, 0, fresh_output(), ROOM);
    EXPECT(refused(written, 13));
    EXPECT(refused(ostrogosz_ucp_send_uplink(NULL, 0, fresh_output()), 13));
}

/* Whether a measure is known and has this value. */
static int measures(struct ostrogosz_ucp_measure measure, int32_t value)
{
    return measure.known == 1 && measure.value == value;
}

static int measures_nothing(struct ostrogosz_ucp_measure measure)
{
    return measure.known == 0 && measure.value == 0;
}

/* What raw numbers mean, at the edges and at the no data marks. */
static void try_meanings(void)
{
    EXPECT(measures(ostrogosz_ucp_altitude_in_feet(0), -1000));
    EXPECT(measures(ostrogosz_ucp_altitude_in_feet(240), 5000));
    EXPECT(measures(ostrogosz_ucp_altitude_in_feet(0xFFE), 101350));
    EXPECT(measures_nothing(ostrogosz_ucp_altitude_in_feet(0xFFF)));
    EXPECT(measures(ostrogosz_ucp_rate_in_feet_per_minute(1), 64));
    EXPECT(measures(ostrogosz_ucp_rate_in_feet_per_minute(-2047), -131008));
    EXPECT(measures_nothing(ostrogosz_ucp_rate_in_feet_per_minute(-2048)));
    EXPECT(ostrogosz_ucp_geometric_altitude_in_feet(-100) == -500);
    EXPECT(ostrogosz_ucp_degrees_e7(0x1FEF15) == 449070668);
    EXPECT(ostrogosz_ucp_degrees_e7(0xA88978 - 0x1000000) == -1229948616);
    EXPECT(ostrogosz_ucp_degrees_e7(-0x800000) == -1800000000);
    EXPECT(ostrogosz_ucp_degrees_e7(0x400000) == 900000000);
}

int main(void)
{
    try_meanings();
    try_bodies();
    try_other_kinds();
    try_yes();
    try_flags();
    try_report_fields();
    try_other_fields();
    try_squawks(5, takes_squawk, refuses_squawk);
    EXPECT(refuses_squawk(5, 65535));
    try_ranged_emitters(6, takes_emitter, refuses_emitter);
    try_carried_emitters(1, takes_emitter);
    try_carried_emitters(3, takes_emitter);
    try_payloads();
    try_read_refusals();
    try_no_pointer();
    return finish();
}
