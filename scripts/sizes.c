/* The stack that each call uses, as rows of a table. */
#include <stdio.h>
#include <string.h>

#include "ostrogosz.h"

enum { PAINTED = 16384, PAINT = 0xA5 };

static struct ostrogosz_ucp_heartbeat heartbeat;
static struct ostrogosz_ucp_report report;
static struct ostrogosz_ucp_geometric_altitude altitude;
static struct ostrogosz_ucp_request request;
static struct ostrogosz_ucp_control control;
static struct ostrogosz_ucp_initialization initialization;
static struct ostrogosz_mavlink_header header;
static struct ostrogosz_mavlink_data_stream data_stream;
static struct ostrogosz_mavlink_static static_data;
static struct ostrogosz_mavlink_dynamic dynamic;
static struct ostrogosz_mavlink_status status;
static struct ostrogosz_mavlink_traffic traffic;
static struct ostrogosz_ucp_receiver receiver;
static uint8_t payload[OSTROGOSZ_UCP_UPLINK_PAYLOAD];
static uint8_t body[OSTROGOSZ_UCP_LONGEST_BODY];
static uint8_t frame[OSTROGOSZ_UCP_LONGEST_FRAME];
static size_t length;

/* Answers go where no call's stack is. */
static struct ostrogosz_written written;
static volatile uint32_t answer;

#define ROOM sizeof frame

/* A call to be measured, and what is done before it. */
#define CALL(name, before, call)                                               \
    static void prepare_##name(void) { before; }                               \
    static void __attribute__((noinline)) name(void) { call; }

#define UCP(kind, message)                                                     \
    CALL(write_##kind, ,                                                       \
         written = ostrogosz_ucp_write_##kind(&message, frame, ROOM))          \
    CALL(send_##kind, , written = ostrogosz_ucp_send_##kind(&message, frame))  \
    CALL(read_##kind,                                                          \
         length = ostrogosz_ucp_write_##kind(&message, body, sizeof body)      \
                      .length,                                                 \
         answer = ostrogosz_ucp_read_##kind(body, length, &message))

#define MAVLINK(kind, message)                                                 \
    CALL(mavlink_write_##kind, ,                                               \
         written = ostrogosz_mavlink_write_##kind(&message, &header, frame,    \
                                                  ROOM))                       \
    CALL(mavlink_read_##kind,                                                  \
         length = ostrogosz_mavlink_write_##kind(&message, &header, frame,     \
                                                 ROOM)                         \
                      .length,                                                 \
         answer = ostrogosz_mavlink_read_##kind(frame, length, &header,        \
                                                &message))

UCP(heartbeat, heartbeat)
UCP(ownship, report)
UCP(geometric_altitude, altitude)
UCP(traffic, report)
UCP(request, request)
UCP(control, control)
UCP(initialization, initialization)
MAVLINK(data_stream, data_stream)
MAVLINK(static, static_data)
MAVLINK(dynamic, dynamic)
MAVLINK(status, status)
MAVLINK(traffic, traffic)

CALL(frame_check, , answer = ostrogosz_ucp_frame_check(body, sizeof body))
CALL(write_frame, memset(body, 0x7E, sizeof body),
     written = ostrogosz_ucp_write_frame(body, sizeof body, frame, ROOM))
CALL(write_frame_measured, memset(body, 0x7E, sizeof body),
     written = ostrogosz_ucp_write_frame(body, sizeof body, frame, 500))
CALL(write_uplink, ,
     written = ostrogosz_ucp_write_uplink(payload, sizeof payload, frame, ROOM))
CALL(send_uplink, ,
     written = ostrogosz_ucp_send_uplink(payload, sizeof payload, frame))
CALL(read_uplink,
     ostrogosz_ucp_write_uplink(payload, sizeof payload, body, sizeof body),
     answer = ostrogosz_ucp_read_uplink(body, sizeof body, payload))
CALL(read_id, , answer = ostrogosz_ucp_read_id(body, sizeof body).id)
CALL(altitude_in_feet, ,
     answer = (uint32_t)ostrogosz_ucp_altitude_in_feet(7).value)
CALL(rate_in_feet_per_minute, ,
     answer = (uint32_t)ostrogosz_ucp_rate_in_feet_per_minute(7).value)
CALL(geometric_altitude_in_feet, ,
     answer = (uint32_t)ostrogosz_ucp_geometric_altitude_in_feet(7))
CALL(degrees_e7, , answer = (uint32_t)ostrogosz_ucp_degrees_e7(7))
CALL(mavlink_read_id, , answer = ostrogosz_mavlink_read_id(frame, ROOM).id)
CALL(mavlink_count_failures, ,
     answer = ostrogosz_mavlink_count_failures(7).count)
CALL(start, , ostrogosz_ucp_receiver_start(&receiver))

static void prepare_line(void)
{
    length = ostrogosz_ucp_send_ownship(&report, frame).length;
    ostrogosz_ucp_receiver_start(&receiver);
}

/* A frame up to its flag, so that the flag's call is the one measured. */
static void prepare_flag(void)
{
    prepare_line();
    ostrogosz_ucp_receiver_receive_slice(&receiver, frame, length - 1, body,
                                         sizeof body);
}

CALL(receive, prepare_flag(),
     answer = ostrogosz_ucp_receiver_receive(&receiver, 0x7E, body, sizeof body)
                  .kind)
CALL(receive_slice, prepare_line(),
     answer = ostrogosz_ucp_receiver_receive_slice(&receiver, frame, length,
                                                   body, sizeof body)
                  .kind)
CALL(nothing, , (void)0)

static uintptr_t lowest;

static void __attribute__((noinline)) paint(void)
{
    volatile uint8_t area[PAINTED];
    size_t i;
    for (i = 0; i < sizeof area; i++)
        area[i] = PAINT;
    lowest = (uintptr_t)area;
}

/* Octets of stack from here down to the lowest that the call changed. */
static size_t __attribute__((noinline)) used(void (*call)(void))
{
    volatile uint8_t here = 0;
    const volatile uint8_t *at;
    paint();
    call();
    at = (const volatile uint8_t *)lowest;
    while (*at == PAINT)
        at++;
    return (uintptr_t)&here - (uintptr_t)at;
}

static void row(const char *name, void (*prepare)(void), void (*call)(void))
{
    prepare();
    (void)used(nothing);
    prepare();
    printf("| ostrogosz_%s | %u |\n", name,
           (unsigned)(used(call) - used(nothing)));
}

#define ROW(name, call) row(#name, prepare_##call, call)
#define UCP_ROWS(kind)                                                         \
    ROW(ucp_read_##kind, read_##kind);                                         \
    ROW(ucp_write_##kind, write_##kind);                                       \
    ROW(ucp_send_##kind, send_##kind)
#define MAVLINK_ROWS(kind)                                                     \
    ROW(mavlink_read_##kind, mavlink_read_##kind);                             \
    ROW(mavlink_write_##kind, mavlink_write_##kind)

int main(void)
{
    prepare_nothing();
    memset(control.identity, ' ', 8);
    memset(initialization.callsign, ' ', 8);
    memset(static_data.callsign, ' ', 8);
    ROW(ucp_frame_check, frame_check);
    ROW(ucp_write_frame, write_frame);
    row("ucp_write_frame, refused with 8", prepare_write_frame_measured,
        write_frame_measured);
    ROW(ucp_start, start);
    row("ucp_receive, a flag", prepare_receive, receive);
    ROW(ucp_receive_slice, receive_slice);
    ROW(ucp_read_id, read_id);
    UCP_ROWS(heartbeat);
    UCP_ROWS(uplink);
    UCP_ROWS(ownship);
    UCP_ROWS(geometric_altitude);
    UCP_ROWS(traffic);
    UCP_ROWS(request);
    UCP_ROWS(control);
    UCP_ROWS(initialization);
    ROW(ucp_altitude_in_feet, altitude_in_feet);
    ROW(ucp_rate_in_feet_per_minute, rate_in_feet_per_minute);
    ROW(ucp_geometric_altitude_in_feet, geometric_altitude_in_feet);
    ROW(ucp_degrees_e7, degrees_e7);
    ROW(mavlink_read_id, mavlink_read_id);
    MAVLINK_ROWS(data_stream);
    MAVLINK_ROWS(static);
    MAVLINK_ROWS(dynamic);
    MAVLINK_ROWS(status);
    MAVLINK_ROWS(traffic);
    ROW(mavlink_count_failures, mavlink_count_failures);
    return 0;
}
