/*
 * Ostrogosz: the UCP/GDL90 serial line. Frames and their check, the receiver,
 * the messages and what their raw numbers mean.
 */
#ifndef OSTROGOSZ_UCP_H
#define OSTROGOSZ_UCP_H

#include "common.h"

#ifdef __cplusplus
extern "C" {
#endif

/* Octets of the longest body that a frame carries. */
#define OSTROGOSZ_UCP_LONGEST_BODY 436

/* Octets of the longest frame: two flags around 436 octets of body and 2 of
 * check, all of them escaped. */
#define OSTROGOSZ_UCP_LONGEST_FRAME 878

/* ---- Frames ---- */

/*
 * The frame check sequence of a body: its remainder by x^16 + x^12 + x^5 + 1,
 * started at 0, not inverted, with no zero bits behind the body. A frame
 * carries the low octet first.
 *
 * Bad input: none. A body may have any length, 0 (the check is 0) and more
 * than 436 too.
 */
uint16_t ostrogosz_ucp_frame_check(const uint8_t *body, size_t body_length);

/*
 * Writes the frame of body at the start of output: flag, body and check
 * stuffed together, flag.
 *
 * Bad input, tested in this order:
 *   7  a body of 0 or more than OSTROGOSZ_UCP_LONGEST_BODY octets
 *   8  output shorter than this very frame
 *
 * Room that always suffices: OSTROGOSZ_UCP_LONGEST_FRAME octets; for a body of
 * n octets also 2 * n + 6.
 *
 * A refusal writes nothing. An accepted call writes exactly the frame, and the
 * octets of output behind it keep what they held.
 */
struct ostrogosz_written ostrogosz_ucp_write_frame(const uint8_t *body,
                                                   size_t body_length,
                                                   uint8_t *output,
                                                   size_t output_length);

/* ---- The receiver ---- */

/* Octets of the receive store: the longest body and its check. */
#define OSTROGOSZ_UCP_STORE 438

/* Numbers of the line. */
#define OSTROGOSZ_UCP_LINE 7

/* Places in the line. */
#define OSTROGOSZ_UCP_LINE_PHASE 0     /* one of the phases below */
#define OSTROGOSZ_UCP_LINE_STORED 1    /* unstuffed octets in the store */
#define OSTROGOSZ_UCP_LINE_FLAGS 2     /* count: flags */
#define OSTROGOSZ_UCP_LINE_DELIVERED 3 /* count: octets, stretch delivered */
#define OSTROGOSZ_UCP_LINE_REFUSED 4   /* count: octets, stretch refused */
#define OSTROGOSZ_UCP_LINE_SKIPPED 5   /* count: octets before the first flag */
#define OSTROGOSZ_UCP_LINE_OPEN 6      /* count: octets since the last flag */

/* Phases; a greater number is taken for 4. */
#define OSTROGOSZ_UCP_PHASE_HUNTING 0    /* no flag yet: nothing is stored */
#define OSTROGOSZ_UCP_PHASE_READING 1    /* in a stretch, no fault so far */
#define OSTROGOSZ_UCP_PHASE_ESCAPE 2     /* the last octet was an escape */
#define OSTROGOSZ_UCP_PHASE_BAD_ESCAPE 3 /* refusal 1 is due at the flag */
#define OSTROGOSZ_UCP_PHASE_TOO_LONG 4   /* refusal 3 is due at the flag */

/* Kinds of answer. */
#define OSTROGOSZ_UCP_ANSWER_NOTHING 0   /* no answer is due; value: 0 */
#define OSTROGOSZ_UCP_ANSWER_DELIVERED 1 /* value: octets of the body */
#define OSTROGOSZ_UCP_ANSWER_REFUSED 2   /* value: the refusal, 1 to 6 */

/*
 * The receiver of one line, in the caller's memory. Its byte map, numbers
 * little-endian, so that a dump can be read:
 *
 *     0 to 437  store: unstuffed octets of the open stretch, zero behind them
 *   438 to 439  padding, never written
 *   440 to 443  phase
 *   444 to 447  octets in the store
 *   448 to 451  flags
 *   452 to 455  delivered: octets between two flags, delivered
 *   456 to 459  refused: octets between two flags, refused
 *   460 to 463  skipped: octets before the first flag
 *   464 to 467  open: octets since the last flag
 *
 * Each count is in line octets and runs round at 2^32; their sum is the
 * octets received, modulo 2^32. After the call that took a flag the store is
 * all zero, the phase is 1 and no octet is stored.
 */
struct ostrogosz_ucp_receiver {
    uint8_t store[OSTROGOSZ_UCP_STORE];
    uint32_t line[OSTROGOSZ_UCP_LINE];
};
OSTROGOSZ_SIZE(ostrogosz_ucp_receiver, 440 + 4 * OSTROGOSZ_UCP_LINE);
OSTROGOSZ_OFFSET(ostrogosz_ucp_receiver, store, 0);
OSTROGOSZ_OFFSET(ostrogosz_ucp_receiver, line, 440);

/* The answer to one octet. */
struct ostrogosz_ucp_answer {
    uint32_t kind;
    uint32_t value;
};
OSTROGOSZ_SIZE(ostrogosz_ucp_answer, 8);
OSTROGOSZ_OFFSET(ostrogosz_ucp_answer, value, 4);

/* The answer to a slice of the line, and how much of it was taken. */
struct ostrogosz_ucp_taken {
    uint32_t kind;
    uint32_t value;
    size_t taken;
};
OSTROGOSZ_SIZE(ostrogosz_ucp_taken, 16);
OSTROGOSZ_OFFSET(ostrogosz_ucp_taken, value, 4);
OSTROGOSZ_OFFSET(ostrogosz_ucp_taken, taken, 8);

/*
 * Makes a receiver fresh, whatever it held: it hunts, the store is zero and so
 * is every count. Call it before the first octet, and whenever the line changes
 * hands: it clears an open stretch without waiting for a flag.
 *
 * Bad input: none.
 */
void ostrogosz_ucp_start(uint8_t store[OSTROGOSZ_UCP_STORE],
                         uint32_t line[OSTROGOSZ_UCP_LINE]);

/*
 * Takes one octet of the line. A flag closes a stretch and opens the next. A
 * stretch with an octet in it gets one answer, at the call that brings its
 * closing flag; every other call answers OSTROGOSZ_UCP_ANSWER_NOTHING.
 *
 * Bad input is a stretch that is no frame, and the answer is its refusal. The
 * first fault from the left is kept:
 *   1  7D followed by an octet other than 5D, 5E, 7E
 *   3  more than 438 unstuffed octets
 * else, at the flag and in this order:
 *   2  7D directly before the flag
 *   4  fewer than 3 unstuffed octets
 *   5  check wrong
 *   6  output shorter than the body; the frame is lost
 *
 * Room that always suffices: OSTROGOSZ_UCP_LONGEST_BODY octets; then 6 never
 * comes. Only the output lent at the flag counts.
 *
 * A delivery writes exactly the body at the start of output, and the octets
 * behind it keep what they held; every other answer writes nothing there.
 * Clearing a delivered body is the caller's part. Any values of store and line
 * are taken, also those that no line leads to.
 */
struct ostrogosz_ucp_answer
ostrogosz_ucp_receive(uint8_t store[OSTROGOSZ_UCP_STORE],
                      uint32_t line[OSTROGOSZ_UCP_LINE], uint8_t octet,
                      uint8_t *output, size_t output_length);

/*
 * Takes octets up to and with the first that gets an answer, or all of them,
 * each as ostrogosz_ucp_receive does with this output. taken says how many; the
 * caller goes on behind them. No octets get OSTROGOSZ_UCP_ANSWER_NOTHING.
 *
 * Bad input, room and what is written: as for ostrogosz_ucp_receive.
 */
struct ostrogosz_ucp_taken ostrogosz_ucp_receive_slice(
    uint8_t store[OSTROGOSZ_UCP_STORE], uint32_t line[OSTROGOSZ_UCP_LINE],
    const uint8_t *octets, size_t octets_length, uint8_t *output,
    size_t output_length);

/* The same calls on the struct. */

static inline void
ostrogosz_ucp_receiver_start(struct ostrogosz_ucp_receiver *receiver)
{
    ostrogosz_ucp_start(receiver->store, receiver->line);
}

static inline struct ostrogosz_ucp_answer
ostrogosz_ucp_receiver_receive(struct ostrogosz_ucp_receiver *receiver,
                               uint8_t octet, uint8_t *output,
                               size_t output_length)
{
    return ostrogosz_ucp_receive(receiver->store, receiver->line, octet, output,
                                 output_length);
}

static inline struct ostrogosz_ucp_taken
ostrogosz_ucp_receiver_receive_slice(struct ostrogosz_ucp_receiver *receiver,
                                     const uint8_t *octets,
                                     size_t octets_length, uint8_t *output,
                                     size_t output_length)
{
    return ostrogosz_ucp_receive_slice(receiver->store, receiver->line, octets,
                                       octets_length, output, output_length);
}

/* The octets received, modulo 2^32: the sum of the five counts. */
static inline uint32_t
ostrogosz_ucp_receiver_octets(const struct ostrogosz_ucp_receiver *receiver)
{
    const uint32_t *line = receiver->line;
    return line[OSTROGOSZ_UCP_LINE_FLAGS] + line[OSTROGOSZ_UCP_LINE_DELIVERED] +
           line[OSTROGOSZ_UCP_LINE_REFUSED] + line[OSTROGOSZ_UCP_LINE_SKIPPED] +
           line[OSTROGOSZ_UCP_LINE_OPEN];
}

/* ---- The messages ---- */

/* A message's ID, the first octet of its body, and octets of its body. */
#define OSTROGOSZ_UCP_ID_HEARTBEAT 0           /* 7 */
#define OSTROGOSZ_UCP_ID_UPLINK 7              /* 436 */
#define OSTROGOSZ_UCP_ID_OWNSHIP 10            /* 28 */
#define OSTROGOSZ_UCP_ID_GEOMETRIC_ALTITUDE 11 /* 5 */
#define OSTROGOSZ_UCP_ID_TRAFFIC 20            /* 28 */
#define OSTROGOSZ_UCP_ID_REQUEST 44            /* 3 */
#define OSTROGOSZ_UCP_ID_CONTROL 45            /* 18 */
#define OSTROGOSZ_UCP_ID_INITIALIZATION 117    /* 19 */

/* Octets of an uplink's payload: all of its body but the ID. */
#define OSTROGOSZ_UCP_UPLINK_PAYLOAD 435

/*
 * Fields are raw numbers. "bits" is what the body has for a field that is
 * narrower than its type: a writer refuses a wider value with 13. "range" is
 * tested in reading and in writing, else 13. A text has no zero at its end. A
 * "yes or no" is read as 0 or 1; a writer takes 0 for no and any other octet
 * for yes.
 */

/* 0, Heartbeat: all bits are carried. On the line counts has its high octet
 * first, while time_stamp has its low octet first. */
struct ostrogosz_ucp_heartbeat {
    uint8_t status_1;
    uint8_t status_2;    /* bit 7: bit 16 of the time stamp */
    uint16_t time_stamp; /* seconds since midnight UTC, bits 0 to 15 */
    uint16_t counts;     /* messages received */
};
OSTROGOSZ_SIZE(ostrogosz_ucp_heartbeat, 6);
OSTROGOSZ_OFFSET(ostrogosz_ucp_heartbeat, status_1, 0);
OSTROGOSZ_OFFSET(ostrogosz_ucp_heartbeat, status_2, 1);
OSTROGOSZ_OFFSET(ostrogosz_ucp_heartbeat, time_stamp, 2);
OSTROGOSZ_OFFSET(ostrogosz_ucp_heartbeat, counts, 4);

/* 10 and 20, Ownship report and Traffic report. */
struct ostrogosz_ucp_report {
    uint8_t alert;         /* 4 bits */
    uint8_t address_type;  /* 4 bits */
    uint32_t address;      /* 24 bits */
    int32_t latitude;      /* 24 bits; steps of 180 / 2^23 degrees, north + */
    int32_t longitude;     /* 24 bits; steps of 180 / 2^23 degrees, east + */
    uint16_t altitude;     /* 12 bits; 25 n - 1000 feet; no data: 0xFFF */
    uint8_t miscellaneous; /* 4 bits */
    uint8_t nic;           /* 4 bits */
    uint8_t nacp;          /* 4 bits */
    uint16_t speed;        /* 12 bits; knots; in GDL90 0xFFF is no data */
    int16_t vertical_rate; /* 12 bits; 64 n feet per minute; no data: -2048 */
    uint8_t track;         /* steps of 360 / 256 degrees */
    uint8_t emitter;       /* any octet, OSTROGOSZ_EMITTER_ */
    uint8_t callsign[8];   /* any octets */
    uint8_t emergency;     /* 4 bits */
    uint8_t spare;         /* 4 bits */
};
OSTROGOSZ_SIZE(ostrogosz_ucp_report, 40);
OSTROGOSZ_OFFSET(ostrogosz_ucp_report, alert, 0);
OSTROGOSZ_OFFSET(ostrogosz_ucp_report, address_type, 1);
OSTROGOSZ_OFFSET(ostrogosz_ucp_report, address, 4);
OSTROGOSZ_OFFSET(ostrogosz_ucp_report, latitude, 8);
OSTROGOSZ_OFFSET(ostrogosz_ucp_report, longitude, 12);
OSTROGOSZ_OFFSET(ostrogosz_ucp_report, altitude, 16);
OSTROGOSZ_OFFSET(ostrogosz_ucp_report, miscellaneous, 18);
OSTROGOSZ_OFFSET(ostrogosz_ucp_report, nic, 19);
OSTROGOSZ_OFFSET(ostrogosz_ucp_report, nacp, 20);
OSTROGOSZ_OFFSET(ostrogosz_ucp_report, speed, 22);
OSTROGOSZ_OFFSET(ostrogosz_ucp_report, vertical_rate, 24);
OSTROGOSZ_OFFSET(ostrogosz_ucp_report, track, 26);
OSTROGOSZ_OFFSET(ostrogosz_ucp_report, emitter, 27);
OSTROGOSZ_OFFSET(ostrogosz_ucp_report, callsign, 28);
OSTROGOSZ_OFFSET(ostrogosz_ucp_report, emergency, 36);
OSTROGOSZ_OFFSET(ostrogosz_ucp_report, spare, 37);

/* 11, Ownship geometric altitude. */
struct ostrogosz_ucp_geometric_altitude {
    int16_t altitude; /* steps of 5 feet */
    uint16_t metrics;
};
OSTROGOSZ_SIZE(ostrogosz_ucp_geometric_altitude, 4);
OSTROGOSZ_OFFSET(ostrogosz_ucp_geometric_altitude, altitude, 0);
OSTROGOSZ_OFFSET(ostrogosz_ucp_geometric_altitude, metrics, 2);

/* 44, Message Request, version 2. */
struct ostrogosz_ucp_request {
    uint8_t requested_id; /* any */
};
OSTROGOSZ_SIZE(ostrogosz_ucp_request, 1);
OSTROGOSZ_OFFSET(ostrogosz_ucp_request, requested_id, 0);

/* 45, Control, version 1. */
struct ostrogosz_ucp_control {
    uint8_t es_enabled;   /* yes or no: 1090ES transmission */
    uint8_t mode_s;       /* yes or no: replies in mode S, C and A */
    uint8_t mode_c;       /* yes or no */
    uint8_t mode_a;       /* yes or no */
    uint8_t ident;        /* yes or no: ident button active */
    uint8_t air_ground;   /* 2 bits */
    uint8_t baro_checked; /* yes or no: external barometer cross checked */
    int32_t altitude;     /* pressure altitude, mm; unknown: INT32_MAX */
    uint16_t squawk;      /* decimal, range: at most four digits, each 0 to 7 */
    uint8_t emergency;
    uint8_t identity[8]; /* range 0-9, A-Z, spaces at the end alone */
};
OSTROGOSZ_SIZE(ostrogosz_ucp_control, 24);
OSTROGOSZ_OFFSET(ostrogosz_ucp_control, es_enabled, 0);
OSTROGOSZ_OFFSET(ostrogosz_ucp_control, mode_s, 1);
OSTROGOSZ_OFFSET(ostrogosz_ucp_control, mode_c, 2);
OSTROGOSZ_OFFSET(ostrogosz_ucp_control, mode_a, 3);
OSTROGOSZ_OFFSET(ostrogosz_ucp_control, ident, 4);
OSTROGOSZ_OFFSET(ostrogosz_ucp_control, air_ground, 5);
OSTROGOSZ_OFFSET(ostrogosz_ucp_control, baro_checked, 6);
OSTROGOSZ_OFFSET(ostrogosz_ucp_control, altitude, 8);
OSTROGOSZ_OFFSET(ostrogosz_ucp_control, squawk, 12);
OSTROGOSZ_OFFSET(ostrogosz_ucp_control, emergency, 14);
OSTROGOSZ_OFFSET(ostrogosz_ucp_control, identity, 15);

/* 117, Initialization; signature 65, subtype 1. */
struct ostrogosz_ucp_initialization {
    uint8_t version;      /* any */
    uint32_t address;     /* 24 bits */
    uint8_t emitter;      /* range 0 to 21, OSTROGOSZ_EMITTER_ */
    uint8_t callsign[8];  /* range A-Z, 0-9, space */
    uint8_t stall_speed;  /* knots */
    uint8_t size;         /* range 0 to 15, a code of length and width */
    uint8_t lateral;      /* antenna offset, 3 bits */
    uint8_t longitudinal; /* antenna offset, 5 bits */
};
OSTROGOSZ_SIZE(ostrogosz_ucp_initialization, 24);
OSTROGOSZ_OFFSET(ostrogosz_ucp_initialization, version, 0);
OSTROGOSZ_OFFSET(ostrogosz_ucp_initialization, address, 4);
OSTROGOSZ_OFFSET(ostrogosz_ucp_initialization, emitter, 8);
OSTROGOSZ_OFFSET(ostrogosz_ucp_initialization, callsign, 9);
OSTROGOSZ_OFFSET(ostrogosz_ucp_initialization, stall_speed, 17);
OSTROGOSZ_OFFSET(ostrogosz_ucp_initialization, size, 18);
OSTROGOSZ_OFFSET(ostrogosz_ucp_initialization, lateral, 19);
OSTROGOSZ_OFFSET(ostrogosz_ucp_initialization, longitudinal, 20);

/* What a body says of itself. */
struct ostrogosz_ucp_id {
    uint32_t refusal; /* 0, or 10 */
    uint32_t id;      /* one of OSTROGOSZ_UCP_ID_; 0 on a refusal */
};
OSTROGOSZ_SIZE(ostrogosz_ucp_id, 8);
OSTROGOSZ_OFFSET(ostrogosz_ucp_id, id, 4);

/*
 * The ID of a body, as the receiver delivers one, so that a driver can choose
 * the reader.
 *
 * Bad input: 10, an unknown ID or no octet. Length and fields are not looked
 * at; the reader of the kind does that.
 */
struct ostrogosz_ucp_id ostrogosz_ucp_read_id(const uint8_t *body,
                                              size_t body_length);

/*
 * Read a body into the caller's struct, and give 0 or the refusal. Success
 * fills all of the struct, padding with zeros; a refusal leaves it as it was.
 * An uplink's payload takes the place of a struct; it also stands at body + 1.
 *
 * Bad input, tested in this order:
 *   10  no octet, or the ID of another kind
 *   11  another length than the kind's
 *   12  wrong version, signature or subtype
 *   13  a field outside its range
 */
uint32_t ostrogosz_ucp_read_heartbeat(const uint8_t *body, size_t body_length,
                                      struct ostrogosz_ucp_heartbeat *message);
uint32_t
ostrogosz_ucp_read_uplink(const uint8_t *body, size_t body_length,
                          uint8_t payload[OSTROGOSZ_UCP_UPLINK_PAYLOAD]);
uint32_t ostrogosz_ucp_read_ownship(const uint8_t *body, size_t body_length,
                                    struct ostrogosz_ucp_report *message);
uint32_t ostrogosz_ucp_read_geometric_altitude(
    const uint8_t *body, size_t body_length,
    struct ostrogosz_ucp_geometric_altitude *message);
uint32_t ostrogosz_ucp_read_traffic(const uint8_t *body, size_t body_length,
                                    struct ostrogosz_ucp_report *message);
uint32_t ostrogosz_ucp_read_request(const uint8_t *body, size_t body_length,
                                    struct ostrogosz_ucp_request *message);
uint32_t ostrogosz_ucp_read_control(const uint8_t *body, size_t body_length,
                                    struct ostrogosz_ucp_control *message);
uint32_t ostrogosz_ucp_read_initialization(
    const uint8_t *body, size_t body_length,
    struct ostrogosz_ucp_initialization *message);

/*
 * Write the body of a message at the start of output.
 *
 * Bad input, tested in this order:
 *   13  a field outside its range or too wide for its bits; of an uplink, a
 *       payload of other than OSTROGOSZ_UCP_UPLINK_PAYLOAD octets
 *   8   output shorter than the body
 *
 * Room that always suffices: OSTROGOSZ_UCP_LONGEST_BODY octets. A refusal
 * writes nothing. An accepted call writes exactly the body, and the octets of
 * output behind it keep what they held.
 */
struct ostrogosz_written
ostrogosz_ucp_write_heartbeat(const struct ostrogosz_ucp_heartbeat *message,
                              uint8_t *output, size_t output_length);
struct ostrogosz_written ostrogosz_ucp_write_uplink(const uint8_t *payload,
                                                    size_t payload_length,
                                                    uint8_t *output,
                                                    size_t output_length);
struct ostrogosz_written
ostrogosz_ucp_write_ownship(const struct ostrogosz_ucp_report *message,
                            uint8_t *output, size_t output_length);
struct ostrogosz_written ostrogosz_ucp_write_geometric_altitude(
    const struct ostrogosz_ucp_geometric_altitude *message, uint8_t *output,
    size_t output_length);
struct ostrogosz_written
ostrogosz_ucp_write_traffic(const struct ostrogosz_ucp_report *message,
                            uint8_t *output, size_t output_length);
struct ostrogosz_written
ostrogosz_ucp_write_request(const struct ostrogosz_ucp_request *message,
                            uint8_t *output, size_t output_length);
struct ostrogosz_written
ostrogosz_ucp_write_control(const struct ostrogosz_ucp_control *message,
                            uint8_t *output, size_t output_length);
struct ostrogosz_written ostrogosz_ucp_write_initialization(
    const struct ostrogosz_ucp_initialization *message, uint8_t *output,
    size_t output_length);

/*
 * Write the frame of a message at the start of buffer: body and frame in one
 * call.
 *
 * Bad input: 13, as above; then 7 and 8 as ostrogosz_ucp_write_frame gives them
 * to the body. No message is known to get those two: a body has 3 to 436
 * octets, and 878 are enough for its frame. A refusal writes nothing; the
 * octets of buffer behind the frame keep what they held.
 */
struct ostrogosz_written
ostrogosz_ucp_send_heartbeat(const struct ostrogosz_ucp_heartbeat *message,
                             uint8_t buffer[OSTROGOSZ_UCP_LONGEST_FRAME]);
struct ostrogosz_written
ostrogosz_ucp_send_uplink(const uint8_t *payload, size_t payload_length,
                          uint8_t buffer[OSTROGOSZ_UCP_LONGEST_FRAME]);
struct ostrogosz_written
ostrogosz_ucp_send_ownship(const struct ostrogosz_ucp_report *message,
                           uint8_t buffer[OSTROGOSZ_UCP_LONGEST_FRAME]);
struct ostrogosz_written ostrogosz_ucp_send_geometric_altitude(
    const struct ostrogosz_ucp_geometric_altitude *message,
    uint8_t buffer[OSTROGOSZ_UCP_LONGEST_FRAME]);
struct ostrogosz_written
ostrogosz_ucp_send_traffic(const struct ostrogosz_ucp_report *message,
                           uint8_t buffer[OSTROGOSZ_UCP_LONGEST_FRAME]);
struct ostrogosz_written
ostrogosz_ucp_send_request(const struct ostrogosz_ucp_request *message,
                           uint8_t buffer[OSTROGOSZ_UCP_LONGEST_FRAME]);
struct ostrogosz_written
ostrogosz_ucp_send_control(const struct ostrogosz_ucp_control *message,
                           uint8_t buffer[OSTROGOSZ_UCP_LONGEST_FRAME]);
struct ostrogosz_written ostrogosz_ucp_send_initialization(
    const struct ostrogosz_ucp_initialization *message,
    uint8_t buffer[OSTROGOSZ_UCP_LONGEST_FRAME]);

/* ---- What the raw numbers of 10, 11 and 20 mean. Bad input: none. ---- */

/* A value, or no data. */
struct ostrogosz_ucp_measure {
    uint32_t known; /* 1, or 0 for no data */
    int32_t value;  /* 0 for no data */
};
OSTROGOSZ_SIZE(ostrogosz_ucp_measure, 8);
OSTROGOSZ_OFFSET(ostrogosz_ucp_measure, value, 4);

/* altitude of 10 and 20: 25 n - 1000 feet; 0xFFF is no data. */
struct ostrogosz_ucp_measure ostrogosz_ucp_altitude_in_feet(uint16_t altitude);

/* vertical_rate of 10 and 20: 64 n feet per minute; -2048 is no data. */
struct ostrogosz_ucp_measure
ostrogosz_ucp_rate_in_feet_per_minute(int16_t vertical_rate);

/* altitude of 11: 5 n feet. */
int32_t ostrogosz_ucp_geometric_altitude_in_feet(int16_t altitude);

/* latitude and longitude of 10 and 20: n * 180 / 2^23 degrees, in whole units
 * of 1E-7 degree, toward zero. */
int64_t ostrogosz_ucp_degrees_e7(int32_t angle);

#ifdef __cplusplus
}
#endif

#endif
