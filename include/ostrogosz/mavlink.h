/*
 * Ostrogosz: MAVLink version 1, its frame and five kinds of message.
 */
#ifndef OSTROGOSZ_MAVLINK_H
#define OSTROGOSZ_MAVLINK_H

#include "common.h"

#ifdef __cplusplus
extern "C" {
#endif

/* Octets of the longest frame of the five kinds: the Dynamic one. */
#define OSTROGOSZ_MAVLINK_LONGEST_FRAME 50

/* A kind's message ID, and octets of its frame. */
#define OSTROGOSZ_MAVLINK_ID_DATA_STREAM 66 /* 14 */
#define OSTROGOSZ_MAVLINK_ID_STATIC 201     /* 27 */
#define OSTROGOSZ_MAVLINK_ID_DYNAMIC 202    /* 50 */
#define OSTROGOSZ_MAVLINK_ID_STATUS 203     /* 9 */
#define OSTROGOSZ_MAVLINK_ID_TRAFFIC 246    /* 46 */

/*
 * Numbers travel least significant octet first; here they are the machine's.
 * "range" is tested in reading and in writing, else 25; all else is carried,
 * unknown marks too. A text has no zero at its end. Fields stand in the order
 * of the payload, but for integrity of 201.
 *
 * Fields have the names of source document 001, in 66 those of MAVLink's common
 * set. A comment begins with 001's name where it is spelled differently.
 */

/* What a frame says of itself besides its message. */
struct ostrogosz_mavlink_header {
    uint8_t sequence;
    uint8_t system;
    uint8_t component;
};
OSTROGOSZ_SIZE(ostrogosz_mavlink_header, 3);
OSTROGOSZ_OFFSET(ostrogosz_mavlink_header, sequence, 0);
OSTROGOSZ_OFFSET(ostrogosz_mavlink_header, system, 1);
OSTROGOSZ_OFFSET(ostrogosz_mavlink_header, component, 2);

/* 66, Request data stream. */
struct ostrogosz_mavlink_data_stream {
    uint16_t req_message_rate; /* messages a second */
    uint8_t target_system;
    uint8_t target_component;
    uint8_t req_stream_id;
    uint8_t start_stop; /* 1 start, 0 stop */
};
OSTROGOSZ_SIZE(ostrogosz_mavlink_data_stream, 6);
OSTROGOSZ_OFFSET(ostrogosz_mavlink_data_stream, req_message_rate, 0);
OSTROGOSZ_OFFSET(ostrogosz_mavlink_data_stream, target_system, 2);
OSTROGOSZ_OFFSET(ostrogosz_mavlink_data_stream, target_component, 3);
OSTROGOSZ_OFFSET(ostrogosz_mavlink_data_stream, req_stream_id, 4);
OSTROGOSZ_OFFSET(ostrogosz_mavlink_data_stream, start_stop, 5);

/* 201, Static. */
struct ostrogosz_mavlink_static {
    uint32_t icao; /* ICAO: address, 24 bits; a writer refuses a wider one */
    uint16_t stall_speed; /* stallSpeed: cm/s */
    uint8_t callsign[8];  /* range A-Z, 0-9, space */
    uint8_t capability;   /* range 0: a unit that announces one is refused */
    uint8_t emitter;      /* range 0 to 21, OSTROGOSZ_EMITTER_ */
    uint8_t alw_encode;   /* alwEncode: range 0 to 15, length and width code */
    uint8_t gps_lat_offs; /* gpsLatOffs: range 0 to 7, lateral antenna offset */
    uint8_t gps_lon_offs; /* gpsLonOffs: range 0 to 31, longitudinal one */
    uint8_t integrity;
};
OSTROGOSZ_SIZE(ostrogosz_mavlink_static, 20);
OSTROGOSZ_OFFSET(ostrogosz_mavlink_static, icao, 0);
OSTROGOSZ_OFFSET(ostrogosz_mavlink_static, stall_speed, 4);
OSTROGOSZ_OFFSET(ostrogosz_mavlink_static, callsign, 6);
OSTROGOSZ_OFFSET(ostrogosz_mavlink_static, capability, 14);
OSTROGOSZ_OFFSET(ostrogosz_mavlink_static, emitter, 15);
OSTROGOSZ_OFFSET(ostrogosz_mavlink_static, alw_encode, 16);
OSTROGOSZ_OFFSET(ostrogosz_mavlink_static, gps_lat_offs, 17);
OSTROGOSZ_OFFSET(ostrogosz_mavlink_static, gps_lon_offs, 18);
OSTROGOSZ_OFFSET(ostrogosz_mavlink_static, integrity, 19);

/* 202, Dynamic. */
struct ostrogosz_mavlink_dynamic {
    uint32_t utc_time;  /* utcTime: s since 1980-01-06; unknown: UINT32_MAX */
    int32_t latitude;   /* 1E-7 degree, north +; unknown: INT32_MAX */
    int32_t longitude;  /* 1E-7 degree, east +; unknown: INT32_MAX */
    int32_t alt_pres;   /* altPres: pressure altitude, mm; unknown: INT32_MAX */
    int32_t alt_gnss;   /* altGNSS: GNSS altitude, mm; unknown: INT32_MAX */
    uint32_t acc_horiz; /* accHoriz: accuracy, mm; unknown: UINT32_MAX */
    uint16_t acc_vert;  /* accVert: accuracy, cm; unknown: UINT16_MAX */
    uint16_t acc_vel;   /* accVel: accuracy, mm/s; unknown: UINT16_MAX */
    int16_t vel_vert;   /* velVert: vertical speed, cm/s; unknown: INT16_MAX */
    int16_t ns_vog;     /* nsVog: velocity, cm/s, north +; unknown: INT16_MAX */
    int16_t ew_vog;     /* ewVog: velocity, cm/s, east +; unknown: INT16_MAX */
    uint16_t state;
    uint16_t squawk;   /* decimal, range: at most four digits, each 0 to 7 */
    uint8_t fix_type;  /* fixType: range 0 to 5 */
    uint8_t num_sats;  /* numSats: satellites visible; unknown: UINT8_MAX */
    uint8_t em_status; /* emStatus: emergency status */
    uint8_t control;
};
OSTROGOSZ_SIZE(ostrogosz_mavlink_dynamic, 44);
OSTROGOSZ_OFFSET(ostrogosz_mavlink_dynamic, utc_time, 0);
OSTROGOSZ_OFFSET(ostrogosz_mavlink_dynamic, latitude, 4);
OSTROGOSZ_OFFSET(ostrogosz_mavlink_dynamic, longitude, 8);
OSTROGOSZ_OFFSET(ostrogosz_mavlink_dynamic, alt_pres, 12);
OSTROGOSZ_OFFSET(ostrogosz_mavlink_dynamic, alt_gnss, 16);
OSTROGOSZ_OFFSET(ostrogosz_mavlink_dynamic, acc_horiz, 20);
OSTROGOSZ_OFFSET(ostrogosz_mavlink_dynamic, acc_vert, 24);
OSTROGOSZ_OFFSET(ostrogosz_mavlink_dynamic, acc_vel, 26);
OSTROGOSZ_OFFSET(ostrogosz_mavlink_dynamic, vel_vert, 28);
OSTROGOSZ_OFFSET(ostrogosz_mavlink_dynamic, ns_vog, 30);
OSTROGOSZ_OFFSET(ostrogosz_mavlink_dynamic, ew_vog, 32);
OSTROGOSZ_OFFSET(ostrogosz_mavlink_dynamic, state, 34);
OSTROGOSZ_OFFSET(ostrogosz_mavlink_dynamic, squawk, 36);
OSTROGOSZ_OFFSET(ostrogosz_mavlink_dynamic, fix_type, 38);
OSTROGOSZ_OFFSET(ostrogosz_mavlink_dynamic, num_sats, 39);
OSTROGOSZ_OFFSET(ostrogosz_mavlink_dynamic, em_status, 40);
OSTROGOSZ_OFFSET(ostrogosz_mavlink_dynamic, control, 41);

/* 203, Status. */
struct ostrogosz_mavlink_status {
    uint8_t status; /* 0x01 OK; failures: 0x02 TX 1090ES, 0x04 RX 1090ES,
                     * 0x08 TX UAT, 0x10 RX UAT */
};
OSTROGOSZ_SIZE(ostrogosz_mavlink_status, 1);
OSTROGOSZ_OFFSET(ostrogosz_mavlink_status, status, 0);

/* 246, Traffic report. */
struct ostrogosz_mavlink_traffic {
    uint32_t icao_address;  /* ICAO_address: all 32 bits are carried */
    int32_t lat;            /* 1E-7 degree, north + */
    int32_t lon;            /* 1E-7 degree, east + */
    int32_t altitude;       /* mm, up +; altitude_type says above what */
    uint16_t heading;       /* course over ground, 1E-2 degree */
    uint16_t hor_velocity;  /* horizontal, cm/s */
    int16_t ver_velocity;   /* vertical, cm/s */
    uint16_t valid_flags;   /* validFlags: which fields are valid */
    uint16_t squawk;        /* decimal, range as in 202, or 65535 for none */
    uint8_t altitude_type;  /* 0 pressure altitude, 1 geometric */
    uint8_t callsign[8];    /* any octets */
    uint8_t callsign_ninth; /* the callsign's ninth octet */
    uint8_t emitter_type;   /* any octet, OSTROGOSZ_EMITTER_ */
    uint8_t tslc;           /* seconds since the last communication */
};
OSTROGOSZ_SIZE(ostrogosz_mavlink_traffic, 40);
OSTROGOSZ_OFFSET(ostrogosz_mavlink_traffic, icao_address, 0);
OSTROGOSZ_OFFSET(ostrogosz_mavlink_traffic, lat, 4);
OSTROGOSZ_OFFSET(ostrogosz_mavlink_traffic, lon, 8);
OSTROGOSZ_OFFSET(ostrogosz_mavlink_traffic, altitude, 12);
OSTROGOSZ_OFFSET(ostrogosz_mavlink_traffic, heading, 16);
OSTROGOSZ_OFFSET(ostrogosz_mavlink_traffic, hor_velocity, 18);
OSTROGOSZ_OFFSET(ostrogosz_mavlink_traffic, ver_velocity, 20);
OSTROGOSZ_OFFSET(ostrogosz_mavlink_traffic, valid_flags, 22);
OSTROGOSZ_OFFSET(ostrogosz_mavlink_traffic, squawk, 24);
OSTROGOSZ_OFFSET(ostrogosz_mavlink_traffic, altitude_type, 26);
OSTROGOSZ_OFFSET(ostrogosz_mavlink_traffic, callsign, 27);
OSTROGOSZ_OFFSET(ostrogosz_mavlink_traffic, callsign_ninth, 35);
OSTROGOSZ_OFFSET(ostrogosz_mavlink_traffic, emitter_type, 36);
OSTROGOSZ_OFFSET(ostrogosz_mavlink_traffic, tslc, 37);

/* What the frame at the start of an input is. */
struct ostrogosz_mavlink_id {
    uint32_t refusal; /* 0, or 20 to 23 */
    uint32_t id;      /* one of OSTROGOSZ_MAVLINK_ID_; 0 on a refusal */
    size_t used;      /* octets of the frame; 0 on a refusal */
};
OSTROGOSZ_SIZE(ostrogosz_mavlink_id, 16);
OSTROGOSZ_OFFSET(ostrogosz_mavlink_id, id, 4);
OSTROGOSZ_OFFSET(ostrogosz_mavlink_id, used, 8);

/*
 * The message ID of the frame at the start of input, so that a driver can
 * choose the reader, and where the frame ends.
 *
 * Bad input, tested in this order:
 *   20  no octet
 *   21  the first octet is not FE
 *   20  fewer than 6 octets
 *   22  unknown message ID
 *   23  the length octet is not the kind's
 *   20  fewer octets than the frame has
 * Check and fields are not looked at; the reader of the kind does that.
 */
struct ostrogosz_mavlink_id ostrogosz_mavlink_read_id(const uint8_t *input,
                                                      size_t input_length);

/*
 * Read the frame at the start of input into the caller's structs, and give 0 or
 * the refusal. Octets behind the frame are left. Success fills all of both
 * structs, padding with zeros; a refusal leaves both as they were.
 *
 * Bad input, tested in this order:
 *   20  no octet
 *   21  the first octet is not FE
 *   20  fewer than 6 octets
 *   22  unknown message ID, or another kind's
 *   23  the length octet is not the kind's
 *   20  fewer octets than the frame has
 *   24  the check is wrong
 *   25  a field outside its range
 */
uint32_t ostrogosz_mavlink_read_data_stream(
    const uint8_t *input, size_t input_length,
    struct ostrogosz_mavlink_header *header,
    struct ostrogosz_mavlink_data_stream *message);
uint32_t
ostrogosz_mavlink_read_static(const uint8_t *input, size_t input_length,
                              struct ostrogosz_mavlink_header *header,
                              struct ostrogosz_mavlink_static *message);
uint32_t
ostrogosz_mavlink_read_dynamic(const uint8_t *input, size_t input_length,
                               struct ostrogosz_mavlink_header *header,
                               struct ostrogosz_mavlink_dynamic *message);
uint32_t
ostrogosz_mavlink_read_status(const uint8_t *input, size_t input_length,
                              struct ostrogosz_mavlink_header *header,
                              struct ostrogosz_mavlink_status *message);
uint32_t
ostrogosz_mavlink_read_traffic(const uint8_t *input, size_t input_length,
                               struct ostrogosz_mavlink_header *header,
                               struct ostrogosz_mavlink_traffic *message);

/*
 * Write the frame of a message at the start of output.
 *
 * Bad input, tested in this order:
 *   25  a field outside its range or too wide for its bits
 *   8   output shorter than the frame
 *
 * Room that always suffices: OSTROGOSZ_MAVLINK_LONGEST_FRAME octets. A refusal
 * writes nothing. An accepted call writes exactly the frame, and the octets of
 * output behind it keep what they held.
 */
struct ostrogosz_written ostrogosz_mavlink_write_data_stream(
    const struct ostrogosz_mavlink_data_stream *message,
    const struct ostrogosz_mavlink_header *header, uint8_t *output,
    size_t output_length);
struct ostrogosz_written
ostrogosz_mavlink_write_static(const struct ostrogosz_mavlink_static *message,
                               const struct ostrogosz_mavlink_header *header,
                               uint8_t *output, size_t output_length);
struct ostrogosz_written
ostrogosz_mavlink_write_dynamic(const struct ostrogosz_mavlink_dynamic *message,
                                const struct ostrogosz_mavlink_header *header,
                                uint8_t *output, size_t output_length);
struct ostrogosz_written
ostrogosz_mavlink_write_status(const struct ostrogosz_mavlink_status *message,
                               const struct ostrogosz_mavlink_header *header,
                               uint8_t *output, size_t output_length);
struct ostrogosz_written
ostrogosz_mavlink_write_traffic(const struct ostrogosz_mavlink_traffic *message,
                                const struct ostrogosz_mavlink_header *header,
                                uint8_t *output, size_t output_length);

/* The failure bits, 1 to 4, of a status. */
struct ostrogosz_mavlink_failures {
    uint32_t count;  /* how many are set */
    uint32_t lowest; /* the lowest that is, 1 to 4; 0 for none */
};
OSTROGOSZ_SIZE(ostrogosz_mavlink_failures, 8);
OSTROGOSZ_OFFSET(ostrogosz_mavlink_failures, lowest, 4);

/* Bad input: none; bits 0 and 5 to 7 are no failures. */
struct ostrogosz_mavlink_failures
ostrogosz_mavlink_count_failures(uint8_t status);

#ifdef __cplusplus
}
#endif

#endif
