/*
 * What a call leaves of a message's numbers in memory that the caller did not
 * lend: every call that takes or gives a message, a frame, a line or a number
 * is made with numbers that can be recognised, the lent memory is cleared, and
 * all writable memory of the process is looked through, the stack below too.
 * scan.c does the same for identities and addresses.
 */
#include "memory.h"
#include "ostrogosz.h"

/* All that is lent, and what calls answer. */
static struct {
    struct ostrogosz_ucp_heartbeat heartbeat;
    struct ostrogosz_ucp_report report;
    struct ostrogosz_ucp_geometric_altitude altitude;
    struct ostrogosz_ucp_request request;
    struct ostrogosz_ucp_control control;
    struct ostrogosz_ucp_initialization initialization;
    struct ostrogosz_mavlink_header header;
    struct ostrogosz_mavlink_data_stream data_stream;
    struct ostrogosz_mavlink_static static_data;
    struct ostrogosz_mavlink_dynamic dynamic;
    struct ostrogosz_mavlink_status status;
    struct ostrogosz_mavlink_traffic traffic;
    struct ostrogosz_ucp_receiver receiver;
    uint8_t payload[OSTROGOSZ_UCP_UPLINK_PAYLOAD];
    uint8_t input[OSTROGOSZ_UCP_LONGEST_FRAME];
    uint8_t output[OSTROGOSZ_UCP_LONGEST_FRAME];
    int64_t answer;
} lent;

#define ROOM sizeof lent.output

static size_t length; /* of the last answer in lent.output */
static int accepted;  /* whether every call of a turn was */

static void take(struct ostrogosz_written written)
{
    accepted = accepted && written.refusal == 0;
    length = written.length;
}

static void take_refusal(uint32_t refusal)
{
    accepted = accepted && refusal == 0;
}

static void turn_round(void)
{
    size_t i;
    for (i = 0; i < length; i++) {
        ((volatile uint8_t *)lent.input)[i] = lent.output[i];
    }
}

/* ---- What can be recognised: four octets in a row ---- */

/* Octets that stand nowhere else in this order; no flag, no escape, and below
 * 80, so that a number is not negative. */
static uint8_t number_octet(size_t place)
{
    return (uint8_t)(5 + (place * 37 + (secret == 0 ? 11 : 61)) * 73 % 113);
}

/* Puts number octets into memory, from a place of theirs on. */
static void put_numbers(void *memory, size_t place, size_t count)
{
    volatile uint8_t *octets = (volatile uint8_t *)memory;
    size_t i;
    for (i = 0; i < count; i++) {
        octets[i] = number_octet(place + i);
    }
}

/* A text that is in range, octet by octet. */
static void put_text(uint8_t *text)
{
    size_t i;
    for (i = 0; i < 8; i++) {
        ((volatile uint8_t *)text)[i] = 'Q';
    }
}

/* An octet of a call's mark. */
typedef uint8_t (*marks)(size_t mark, size_t place);

static uint8_t in_a_row(size_t mark, size_t place)
{
    return number_octet(4 * mark + place);
}

/* A position of 24 bits, in the struct and on the line, where the longitude
 * stands behind the latitude. */
static uint8_t of_position(size_t mark, size_t place)
{
    if (mark == 2) {
        return number_octet(place == 3 ? 5 : 2 - place);
    }
    return place == 3 ? 0 : number_octet(3 * mark + place);
}

/* One octet of a message behind its ID and version, or behind the flag too. */
static uint8_t of_request(size_t mark, size_t place)
{
    static const uint8_t before[] = {0x7E, 0x2C, 0x02};
    size_t at = mark + place;
    return at < 3 ? before[at] : at == 3 ? number_octet(0) : 0;
}

static uint8_t of_request_body(size_t mark, size_t place)
{
    return of_request(mark + 1, place);
}

/* A status of one octet behind its frame's header. */
static uint8_t of_status(size_t mark, size_t place)
{
    if (mark == 0) {
        return place == 0 ? 1 : number_octet(place - 1);
    }
    return place == 2 ? 203 : number_octet(place < 2 ? place + 1 : 4);
}

/* The 16 bits that an argument has, 12 of them for what 10 and 20 carry. */
static uint16_t argument(void)
{
    return (uint16_t)((number_octet(0) & 7) << 8 | number_octet(1));
}

static uint8_t of_feet(size_t mark, size_t place)
{
    return (uint8_t)((25u * argument() - 1000u) >> 8 * (place + 0 * mark));
}

static uint8_t of_rate(size_t mark, size_t place)
{
    return (uint8_t)(64u * argument() >> 8 * (place + 0 * mark));
}

static uint8_t of_geometric(size_t mark, size_t place)
{
    return (uint8_t)(5u * argument() >> 8 * (place + 0 * mark));
}

static uint8_t of_angle(size_t mark, size_t place)
{
    return place == 3 ? 0 : number_octet(place + 0 * mark);
}

/* ---- The calls ---- */

static void fill_heartbeat(void) { put_numbers(&lent.heartbeat, 0, 6); }

static void fill_altitude(void) { put_numbers(&lent.altitude, 0, 4); }

static void fill_request(void) { put_numbers(&lent.request, 0, 1); }

static void fill_report(void)
{
    put_numbers(&lent.report.latitude, 0, 3);
    put_numbers(&lent.report.longitude, 3, 3);
}

static void fill_control(void)
{
    put_numbers(&lent.control.altitude, 0, 4);
    put_text(lent.control.identity);
}

static void fill_initialization(void)
{
    put_numbers(&lent.initialization.address, 0, 3);
    put_text(lent.initialization.callsign);
}

static void fill_payload(void) { put_numbers(lent.payload + 100, 0, 40); }

static void fill_header(void) { put_numbers(&lent.header, 0, 3); }

static void fill_data_stream(void) { put_numbers(&lent.data_stream, 0, 6); }

static void fill_static(void)
{
    put_numbers(&lent.static_data.icao, 0, 3);
    put_text(lent.static_data.callsign);
}

static void fill_dynamic(void) { put_numbers(&lent.dynamic, 0, 36); }

static void fill_status(void)
{
    fill_header();
    put_numbers(&lent.status, 4, 1);
}

static void fill_traffic(void) { put_numbers(&lent.traffic, 0, 24); }

/* The calls of a kind. */
#define UCP(kind, message, fill)                                               \
    static void write_##kind(void)                                             \
    {                                                                          \
        fill();                                                                \
        take(ostrogosz_ucp_write_##kind(&lent.message, lent.output, ROOM));    \
    }                                                                          \
    static void send_##kind(void)                                              \
    {                                                                          \
        fill();                                                                \
        take(ostrogosz_ucp_send_##kind(&lent.message, lent.output));           \
    }                                                                          \
    static void read_##kind(void)                                              \
    {                                                                          \
        write_##kind();                                                        \
        turn_round();                                                          \
        take_refusal(                                                          \
            ostrogosz_ucp_read_##kind(lent.input, length, &lent.message));     \
    }

#define MAVLINK(kind, message, fill)                                           \
    static void mavlink_write_##kind(void)                                     \
    {                                                                          \
        fill();                                                                \
        take(ostrogosz_mavlink_write_##kind(&lent.message, &lent.header,       \
                                            lent.output, ROOM));               \
    }                                                                          \
    static void mavlink_read_##kind(void)                                      \
    {                                                                          \
        mavlink_write_##kind();                                                \
        turn_round();                                                          \
        take_refusal(ostrogosz_mavlink_read_##kind(                            \
            lent.input, length, &lent.header, &lent.message));                 \
    }

UCP(heartbeat, heartbeat, fill_heartbeat)
UCP(ownship, report, fill_report)
UCP(geometric_altitude, altitude, fill_altitude)
UCP(traffic, report, fill_report)
UCP(request, request, fill_request)
UCP(control, control, fill_control)
UCP(initialization, initialization, fill_initialization)
MAVLINK(data_stream, data_stream, fill_data_stream)
MAVLINK(static, static_data, fill_static)
MAVLINK(dynamic, dynamic, fill_dynamic)
MAVLINK(status, status, fill_status)
MAVLINK(traffic, traffic, fill_traffic)

static void write_uplink(void)
{
    fill_payload();
    take(ostrogosz_ucp_write_uplink(lent.payload, sizeof lent.payload,
                                    lent.output, ROOM));
}

static void send_uplink(void)
{
    fill_payload();
    take(ostrogosz_ucp_send_uplink(lent.payload, sizeof lent.payload,
                                   lent.output));
}

static void read_uplink(void)
{
    write_uplink();
    turn_round();
    take_refusal(ostrogosz_ucp_read_uplink(lent.input, length, lent.payload));
}

static void read_id(void)
{
    write_heartbeat();
    turn_round();
    take_refusal(ostrogosz_ucp_read_id(lent.input, length).refusal);
}

static void mavlink_read_id(void)
{
    mavlink_write_dynamic();
    turn_round();
    take_refusal(ostrogosz_mavlink_read_id(lent.input, length).refusal);
}

static void frame_check(void)
{
    put_numbers(lent.input, 0, 40);
    (void)ostrogosz_ucp_frame_check(lent.input, 40);
}

static void write_frame(void)
{
    put_numbers(lent.input, 0, 40);
    take(ostrogosz_ucp_write_frame(lent.input, 40, lent.output, ROOM));
}

/* Refused for its room: the frame's length has been counted. */
static void write_no_frame(void)
{
    put_numbers(lent.input, 0, 40);
    accepted =
        ostrogosz_ucp_write_frame(lent.input, 40, lent.output, 20).refusal == 8;
}

static void receive(void)
{
    struct ostrogosz_ucp_answer answer = {0, 0};
    size_t i;
    write_frame();
    turn_round();
    ostrogosz_ucp_receiver_start(&lent.receiver);
    for (i = 0; i < length; i++) {
        answer = ostrogosz_ucp_receiver_receive(&lent.receiver, lent.input[i],
                                                lent.output, ROOM);
    }
    accepted = accepted && answer.kind == OSTROGOSZ_UCP_ANSWER_DELIVERED;
}

static void receive_slice(void)
{
    struct ostrogosz_ucp_taken taken;
    write_frame();
    turn_round();
    ostrogosz_ucp_receiver_start(&lent.receiver);
    taken = ostrogosz_ucp_receiver_receive_slice(&lent.receiver, lent.input,
                                                 length, lent.output, ROOM);
    accepted = accepted && taken.kind == OSTROGOSZ_UCP_ANSWER_DELIVERED;
}

/* In the midst of a stretch. */
static void start_anew(void)
{
    write_frame();
    turn_round();
    ostrogosz_ucp_receiver_receive_slice(&lent.receiver, lent.input, length - 1,
                                         lent.output, ROOM);
    ostrogosz_ucp_receiver_start(&lent.receiver);
}

static void altitude_in_feet(void)
{
    lent.answer = ostrogosz_ucp_altitude_in_feet(argument()).value;
}

static void rate_in_feet_per_minute(void)
{
    lent.answer =
        ostrogosz_ucp_rate_in_feet_per_minute((int16_t)argument()).value;
}

static void geometric_altitude_in_feet(void)
{
    lent.answer = ostrogosz_ucp_geometric_altitude_in_feet((int16_t)argument());
}

static void degrees_e7(void)
{
    put_numbers(&lent.report.latitude, 0, 3);
    lent.answer = ostrogosz_ucp_degrees_e7(lent.report.latitude);
}

static void count_failures(void)
{
    fill_status();
    lent.answer =
        ostrogosz_mavlink_count_failures(lent.status.status).count;
}

#define KIND(kind, of, count)                                                  \
    {"write " #kind, write_##kind, of, count},                                 \
        {"send " #kind, send_##kind, of, count},                               \
        {"read " #kind, read_##kind, of, count}

#define MAVLINK_KIND(kind, of, count)                                          \
    {"write MAVLink " #kind, mavlink_write_##kind, of, count},                 \
        {"read MAVLink " #kind, mavlink_read_##kind, of, count}

/* Every call, its marks, and how many. */
static const struct {
    const char *name;
    void (*call)(void);
    marks of;
    size_t count;
} calls[] = {
    KIND(heartbeat, in_a_row, 1),
    KIND(uplink, in_a_row, 10),
    KIND(ownship, of_position, 3),
    KIND(geometric_altitude, in_a_row, 1),
    KIND(traffic, of_position, 3),
    {"write request", write_request, of_request_body, 1},
    {"send request", send_request, of_request, 1},
    {"read request", read_request, of_request_body, 1},
    KIND(control, in_a_row, 1),
    KIND(initialization, of_angle, 1),
    MAVLINK_KIND(data_stream, in_a_row, 1),
    MAVLINK_KIND(static, of_angle, 1),
    MAVLINK_KIND(dynamic, in_a_row, 9),
    MAVLINK_KIND(status, of_status, 2),
    MAVLINK_KIND(traffic, in_a_row, 6),
    {"read ID", read_id, in_a_row, 1},
    {"read MAVLink ID", mavlink_read_id, in_a_row, 9},
    {"check", frame_check, in_a_row, 10},
    {"write frame", write_frame, in_a_row, 10},
    {"write no frame", write_no_frame, in_a_row, 10},
    {"receive", receive, in_a_row, 10},
    {"receive slice", receive_slice, in_a_row, 10},
    {"start anew", start_anew, in_a_row, 10},
    {"altitude in feet", altitude_in_feet, of_feet, 1},
    {"rate in feet per minute", rate_in_feet_per_minute, of_rate, 1},
    {"geometric altitude in feet", geometric_altitude_in_feet, of_geometric, 1},
    {"degrees", degrees_e7, of_angle, 1},
    /* of one octet, which nothing recognises; scripts/sizes shows that it uses
     * no stack but for the return address */
    {"count failures", count_failures, in_a_row, 0},
};

#define CALLS (sizeof calls / sizeof calls[0])
#define MOST 16

/* ---- Looking ---- */

static size_t current;      /* which call */
static unsigned seen[MOST]; /* how often each of its marks was found */

/* Up, down, and two numbers of 16 bits with their octets turned round. */
static int is_mark(const volatile uint8_t *at, size_t mark)
{
    static const uint8_t orders[][4] = {
        {0, 1, 2, 3}, {3, 2, 1, 0}, {1, 0, 3, 2}};
    marks of = calls[current].of;
    size_t order, i;
    for (order = 0; order < 3; order++) {
        for (i = 0; i < 4 && at[i] == of(mark, orders[order][i]); i++) {
        }
        if (i == 4) {
            return 1;
        }
    }
    return 0;
}

/* No mark begins or ends with an octet that most of memory has: 0. */
static void count(const volatile uint8_t *octets, size_t octets_length)
{
    size_t i, mark;
    for (i = 0; i + 4 <= octets_length; i++) {
        if (octets[i + 1] == 0 && octets[i + 2] == 0) {
            continue;
        }
        for (mark = 0; mark < calls[current].count; mark++) {
            seen[mark] += (unsigned)is_mark(octets + i, mark);
        }
    }
}

/* Copies the call's marks to its own stack: the scan must find them. */
static void leave_copies(void)
{
    volatile uint8_t copies[4 * MOST] = {0};
    size_t mark, place;
    for (mark = 0; mark < calls[current].count; mark++) {
        for (place = 0; place < 4; place++) {
            copies[4 * mark + place] = calls[current].of(mark, place);
        }
    }
    length = copies[0];
}

static void (*volatile carelessly)(void) = leave_copies;

/* What a call leaves of each mark, the lent memory cleared or as it is. */
static void leaves(void (*call)(void), int clears, unsigned left[MOST])
{
    size_t mark;
    accepted = 1;
    wipe(&lent, sizeof lent);
    call_and_keep(call);
    EXPECT(accepted);
    if (clears) {
        wipe(&lent, sizeof lent);
    }
    for (mark = 0; mark < MOST; mark++) {
        seen[mark] = 0;
    }
    look_through(count);
    for (mark = 0; mark < MOST; mark++) {
        left[mark] = seen[mark];
    }
}

/* A mark counts where both secrets' are found. The controls: each is found in
 * the lent memory before that is cleared, and in what a careless call left. */
static void try_call(void)
{
    unsigned left[2][MOST], lent_has[2][MOST], copied[2][MOST];
    size_t mark;
    for (secret = 0; secret < 2; secret++) {
        leaves(calls[current].call, 1, left[secret]);
        leaves(calls[current].call, 0, lent_has[secret]);
        leaves(carelessly, 1, copied[secret]);
    }
    for (mark = 0; mark < calls[current].count; mark++) {
        if (left[0][mark] > 0 && left[1][mark] > 0) {
            printf("%s leaves mark %u\n", calls[current].name, (unsigned)mark);
            EXPECT(!"a trace");
        } else {
            EXPECT("no trace");
        }
        if (lent_has[0][mark] == 0 || lent_has[1][mark] == 0) {
            printf("%s has no mark %u\n", calls[current].name, (unsigned)mark);
        }
        EXPECT(lent_has[0][mark] > 0 && lent_has[1][mark] > 0);
        EXPECT(copied[0][mark] > 0 && copied[1][mark] > 0);
    }
}

int main(void)
{
    for (current = 0; current < CALLS; current++) {
        try_call();
    }
    return finish();
}
