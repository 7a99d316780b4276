/*
 * No call leaves an octet of an identity or address in memory that the caller
 * did not lend: after each call the lent memory is cleared and all writable
 * memory of the process is looked through, the stack below too.
 */
#include "memory.h"
#include "ostrogosz.h"

/* All that is lent. */
static struct {
    struct ostrogosz_ucp_report report;
    struct ostrogosz_ucp_control control;
    struct ostrogosz_ucp_initialization initialization;
    struct ostrogosz_mavlink_header header;
    struct ostrogosz_mavlink_static static_data;
    struct ostrogosz_mavlink_traffic traffic;
    struct ostrogosz_ucp_receiver receiver;
    uint8_t payload[OSTROGOSZ_UCP_UPLINK_PAYLOAD];
    uint8_t input[OSTROGOSZ_UCP_LONGEST_FRAME];
    uint8_t output[OSTROGOSZ_UCP_LONGEST_FRAME];
} lent;

/* Octets of the last answer in lent.output. */
static size_t length;

/* Whether every call of a turn was accepted: one that was refused shows
 * nothing. */
static int accepted;

static void take(struct ostrogosz_written written)
{
    accepted = accepted && written.refusal == 0;
    length = written.length;
}

static void take_refusal(uint32_t refusal)
{
    accepted = accepted && refusal == 0;
}

/* What was written becomes what is read. */
static void turn_round(void)
{
    size_t i;
    for (i = 0; i < length; i++) {
        ((volatile uint8_t *)lent.input)[i] = lent.output[i];
    }
}

#define ROOM sizeof lent.output

/* With the second secret, octets about the identity need an escape. */
static void fill_report(void)
{
    uint8_t near = secret == 0 ? 0x11 : 0x7E;
    put_address(&lent.report.address);
    put_identity(lent.report.callsign);
    lent.report.track = lent.report.emitter = near;
    lent.report.emergency = near >> 4;
    lent.report.spare = near & 15;
}

static void fill_initialization(void)
{
    put_address(&lent.initialization.address);
    put_identity(lent.initialization.callsign);
    lent.initialization.stall_speed = secret == 0 ? 0x11 : 0x7D;
}

static void fill_control(void)
{
    put_identity(lent.control.identity);
    lent.control.emergency = secret == 0 ? 0x11 : 0x7E;
}

static void fill_payload(void)
{
    put_identity(lent.payload + 100);
    lent.payload[99] = lent.payload[108] = secret == 0 ? 0x11 : 0x7D;
}

static void write_ownship(void)
{
    fill_report();
    take(ostrogosz_ucp_write_ownship(&lent.report, lent.output, ROOM));
}

static void write_traffic(void)
{
    fill_report();
    take(ostrogosz_ucp_write_traffic(&lent.report, lent.output, ROOM));
}

static void write_control(void)
{
    fill_control();
    take(ostrogosz_ucp_write_control(&lent.control, lent.output, ROOM));
}

static void write_initialization(void)
{
    fill_initialization();
    take(ostrogosz_ucp_write_initialization(&lent.initialization, lent.output,
                                            ROOM));
}

static void write_uplink(void)
{
    fill_payload();
    take(ostrogosz_ucp_write_uplink(lent.payload, sizeof lent.payload,
                                    lent.output, ROOM));
}

static void send_ownship(void)
{
    fill_report();
    take(ostrogosz_ucp_send_ownship(&lent.report, lent.output));
}

static void send_traffic(void)
{
    fill_report();
    take(ostrogosz_ucp_send_traffic(&lent.report, lent.output));
}

static void send_control(void)
{
    fill_control();
    take(ostrogosz_ucp_send_control(&lent.control, lent.output));
}

static void send_initialization(void)
{
    fill_initialization();
    take(ostrogosz_ucp_send_initialization(&lent.initialization, lent.output));
}

static void send_uplink(void)
{
    fill_payload();
    take(ostrogosz_ucp_send_uplink(lent.payload, sizeof lent.payload,
                                   lent.output));
}

static void read_ownship(void)
{
    write_ownship();
    turn_round();
    take_refusal(ostrogosz_ucp_read_ownship(lent.input, length, &lent.report));
}

static void read_traffic(void)
{
    write_traffic();
    turn_round();
    take_refusal(ostrogosz_ucp_read_traffic(lent.input, length, &lent.report));
}

static void read_control(void)
{
    write_control();
    turn_round();
    take_refusal(ostrogosz_ucp_read_control(lent.input, length, &lent.control));
}

static void read_initialization(void)
{
    write_initialization();
    turn_round();
    take_refusal(ostrogosz_ucp_read_initialization(lent.input, length,
                                                   &lent.initialization));
}

static void read_uplink(void)
{
    write_uplink();
    turn_round();
    take_refusal(ostrogosz_ucp_read_uplink(lent.input, length, lent.payload));
}

static void read_id(void)
{
    write_ownship();
    turn_round();
    take_refusal(ostrogosz_ucp_read_id(lent.input, length).refusal);
}

static void check_body(void)
{
    write_ownship();
    turn_round();
    (void)ostrogosz_ucp_frame_check(lent.input, length);
}

static void write_frame(void)
{
    write_ownship();
    turn_round();
    take(ostrogosz_ucp_write_frame(lent.input, length, lent.output, ROOM));
}

/* Refused for its room: the frame's length has been counted. */
static void write_no_frame(void)
{
    write_ownship();
    turn_round();
    accepted = ostrogosz_ucp_write_frame(lent.input, length, lent.output, 20)
                   .refusal == 8;
}

static void receive(void)
{
    struct ostrogosz_ucp_answer answer = {0, 0};
    size_t i;
    send_control();
    turn_round();
    ostrogosz_ucp_receiver_start(&lent.receiver);
    for (i = 0; i < length; i++) {
        answer = ostrogosz_ucp_receiver_receive(&lent.receiver, lent.input[i],
                                                lent.output, ROOM);
    }
    accepted = accepted && answer.kind == OSTROGOSZ_UCP_ANSWER_DELIVERED;
}

static void receive_slice(void)
{
    struct ostrogosz_ucp_taken taken;
    send_ownship();
    turn_round();
    ostrogosz_ucp_receiver_start(&lent.receiver);
    taken = ostrogosz_ucp_receiver_receive_slice(&lent.receiver, lent.input,
                                                 length, lent.output, ROOM);
    accepted = accepted && taken.kind == OSTROGOSZ_UCP_ANSWER_DELIVERED;
}

/* In the midst of a stretch, the identity in the store, the line changes
 * hands; what is lent is not cleared for that. */
static void start_anew(void)
{
    send_control();
    turn_round();
    ostrogosz_ucp_receiver_start(&lent.receiver);
    ostrogosz_ucp_receiver_receive_slice(&lent.receiver, lent.input, length - 1,
                                         lent.output, ROOM);
    ostrogosz_ucp_receiver_start(&lent.receiver);
    wipe(lent.input, sizeof lent.input);
    wipe(lent.output, sizeof lent.output);
    wipe(&lent.control, sizeof lent.control);
}

static void write_static(void)
{
    put_address(&lent.static_data.icao);
    put_identity(lent.static_data.callsign);
    take(ostrogosz_mavlink_write_static(&lent.static_data, &lent.header,
                                        lent.output, ROOM));
}

static void write_mavlink_traffic(void)
{
    put_address(&lent.traffic.icao_address);
    put_identity(lent.traffic.callsign);
    take(ostrogosz_mavlink_write_traffic(&lent.traffic, &lent.header,
                                         lent.output, ROOM));
}

static void read_static(void)
{
    write_static();
    turn_round();
    take_refusal(ostrogosz_mavlink_read_static(lent.input, length, &lent.header,
                                               &lent.static_data));
}

static void read_mavlink_traffic(void)
{
    write_mavlink_traffic();
    turn_round();
    take_refusal(ostrogosz_mavlink_read_traffic(
        lent.input, length, &lent.header, &lent.traffic));
}

static void read_mavlink_id(void)
{
    write_static();
    turn_round();
    take_refusal(ostrogosz_mavlink_read_id(lent.input, length).refusal);
}

/* Copies the identity to its own stack: the scan must find it. */
static void leave_copy(void)
{
    uint8_t copy[IDENTITY];
    put_identity(copy);
    length = copy[0];
}

static void (*volatile carelessly)(void) = leave_copy;

/* The calls that take or give a message or a line. */
static const struct {
    const char *name;
    void (*call)(void);
} calls[] = {
    {"write ownship", write_ownship},
    {"write traffic", write_traffic},
    {"write control", write_control},
    {"write initialization", write_initialization},
    {"write uplink", write_uplink},
    {"send ownship", send_ownship},
    {"send traffic", send_traffic},
    {"send control", send_control},
    {"send initialization", send_initialization},
    {"send uplink", send_uplink},
    {"read ownship", read_ownship},
    {"read traffic", read_traffic},
    {"read control", read_control},
    {"read initialization", read_initialization},
    {"read uplink", read_uplink},
    {"read ID", read_id},
    {"check", check_body},
    {"write frame", write_frame},
    {"write no frame", write_no_frame},
    {"receive", receive},
    {"receive slice", receive_slice},
    {"start anew", start_anew},
    {"write static", write_static},
    {"write MAVLink traffic", write_mavlink_traffic},
    {"read static", read_static},
    {"read MAVLink traffic", read_mavlink_traffic},
    {"read MAVLink ID", read_mavlink_id},
};

#define CALLS (sizeof calls / sizeof calls[0])

/* What is left in all writable memory. */
static struct traces found;

static void count(const volatile uint8_t *octets, size_t octets_length)
{
    count_traces(octets, octets_length, &found);
}

/* What one call leaves once the lent memory is cleared. */
static struct traces left_by(void (*call)(void), int clears)
{
    accepted = 1;
    wipe(&lent, sizeof lent);
    call_and_keep(call);
    EXPECT(accepted);
    if (clears) {
        wipe(&lent, sizeof lent);
    }
    found.identities = found.addresses = 0;
    look_through(count);
    return found;
}

/* Three octets may stand somewhere by chance, so an address counts only where
 * both are found. */
static void try_call(size_t i)
{
    struct traces left[2];
    for (secret = 0; secret < 2; secret++) {
        left[secret] = left_by(calls[i].call, calls[i].call != start_anew);
    }
    if (left[0].identities > 0 || left[1].identities > 0 ||
        (left[0].addresses > 0 && left[1].addresses > 0)) {
        printf("%s leaves %u and %u identities, %u and %u addresses\n",
               calls[i].name, left[0].identities, left[1].identities,
               left[0].addresses, left[1].addresses);
        EXPECT(!"a trace");
    } else {
        EXPECT("no trace");
    }
}

int main(void)
{
    size_t i;
    for (i = 0; i < CALLS; i++) {
        try_call(i);
    }
    secret = 0;
    EXPECT(left_by(carelessly, 1).identities > 0);
    secret = 1;
    EXPECT(left_by(carelessly, 1).identities > 0);
    return finish();
}
