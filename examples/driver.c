/*
 * An example driver: one UCP line, taken from a capture file.
 *
 *   driver CAPTURE ANSWERS
 *
 * It keeps the line's record, hears the messages, says in a line each what was
 * heard, and answers a Message Request for the Control message with the last
 * one heard: the answering frames are written to the file ANSWERS. Messages lie
 * in the structs of the line and nowhere else, so clearing those before it ends
 * clears every private identity; its files are not buffered, and what it says
 * has no identity or address in it, so that none stays in the C library's
 * memory.
 *
 * A firmware driver differs in where the octets come from: an interrupt hands
 * them over, and ostrogosz_ucp_receiver_receive takes them one by one.
 */
#include <stdio.h>
#include <string.h>

#include "ostrogosz.h"

/* What belongs to one line. */
struct line {
    struct ostrogosz_ucp_receiver receiver;
    uint8_t body[OSTROGOSZ_UCP_LONGEST_BODY];
    struct ostrogosz_ucp_control control; /* the last one heard */
    int heard;                            /* whether one was */
    struct ostrogosz_ucp_heartbeat heartbeat;
    uint8_t payload[OSTROGOSZ_UCP_UPLINK_PAYLOAD];
    struct ostrogosz_ucp_report report;
    struct ostrogosz_ucp_geometric_altitude altitude;
    struct ostrogosz_ucp_request request;
    struct ostrogosz_ucp_initialization initialization;
    uint8_t frame[OSTROGOSZ_UCP_LONGEST_FRAME];
};

/* Stores that the compiler may not leave out, though nothing reads them. */
static void clear(void *memory, size_t length)
{
    volatile uint8_t *octets = (volatile uint8_t *)memory;
    while (length > 0) {
        length--;
        octets[length] = 0;
    }
}

static void say_report(const char *kind,
                       const struct ostrogosz_ucp_report *report)
{
    printf("%s: altitude %u, speed %u\n", kind, (unsigned)report->altitude,
           (unsigned)report->speed);
}

/* A request for the Control message is answered with its frame. */
static int answer(struct line *line, uint8_t requested_id, FILE *answers)
{
    struct ostrogosz_written sent;
    int failed = 0;
    if (requested_id != OSTROGOSZ_UCP_ID_CONTROL || !line->heard) {
        printf("request: nothing to send for %u\n", (unsigned)requested_id);
        return 0;
    }
    sent = ostrogosz_ucp_send_control(&line->control, line->frame);
    if (sent.refusal != 0) {
        printf("request: refused with %u\n", (unsigned)sent.refusal);
        return 0;
    }
    printf("request: answered in %u octets\n", (unsigned)sent.length);
    if (fwrite(line->frame, 1, sent.length, answers) != sent.length)
        failed = 1;
    return failed;
}

/* Reads a delivered body into the struct of its kind: 0, or the refusal. */
static uint32_t read_body(struct line *line, uint32_t id, size_t length)
{
    switch (id) {
    case OSTROGOSZ_UCP_ID_HEARTBEAT:
        return ostrogosz_ucp_read_heartbeat(line->body, length,
                                            &line->heartbeat);
    case OSTROGOSZ_UCP_ID_UPLINK:
        return ostrogosz_ucp_read_uplink(line->body, length, line->payload);
    case OSTROGOSZ_UCP_ID_OWNSHIP:
        return ostrogosz_ucp_read_ownship(line->body, length, &line->report);
    case OSTROGOSZ_UCP_ID_GEOMETRIC_ALTITUDE:
        return ostrogosz_ucp_read_geometric_altitude(line->body, length,
                                                     &line->altitude);
    case OSTROGOSZ_UCP_ID_TRAFFIC:
        return ostrogosz_ucp_read_traffic(line->body, length, &line->report);
    case OSTROGOSZ_UCP_ID_REQUEST:
        return ostrogosz_ucp_read_request(line->body, length, &line->request);
    case OSTROGOSZ_UCP_ID_CONTROL:
        return ostrogosz_ucp_read_control(line->body, length, &line->control);
    default:
        return ostrogosz_ucp_read_initialization(line->body, length,
                                                 &line->initialization);
    }
}

/* One delivered body: says what was heard, and answers a request. */
static int hear(struct line *line, size_t length, FILE *answers)
{
    struct ostrogosz_ucp_id id = ostrogosz_ucp_read_id(line->body, length);
    uint32_t refusal = id.refusal;
    if (refusal == 0)
        refusal = read_body(line, id.id, length);
    if (refusal != 0) {
        printf("message refused with %u\n", (unsigned)refusal);
        return 0;
    }
    switch (id.id) {
    case OSTROGOSZ_UCP_ID_OWNSHIP:
        say_report("ownship", &line->report);
        break;
    case OSTROGOSZ_UCP_ID_TRAFFIC:
        say_report("traffic", &line->report);
        break;
    case OSTROGOSZ_UCP_ID_REQUEST:
        return answer(line, line->request.requested_id, answers);
    case OSTROGOSZ_UCP_ID_CONTROL:
        /* The identity may be private: it is kept and not said. */
        line->heard = 1;
        printf("control: squawk %04u\n", (unsigned)line->control.squawk);
        break;
    default:
        printf("message %u\n", (unsigned)id.id);
        break;
    }
    return 0;
}

/* The octets that a read brought, up to the last of them. */
static int take(struct line *line, const uint8_t *octets, size_t length,
                FILE *answers)
{
    while (length > 0) {
        struct ostrogosz_ucp_taken taken = ostrogosz_ucp_receiver_receive_slice(
            &line->receiver, octets, length, line->body, sizeof line->body);
        octets += taken.taken;
        length -= taken.taken;
        if (taken.kind == OSTROGOSZ_UCP_ANSWER_REFUSED)
            printf("frame refused with %u\n", (unsigned)taken.value);
        if (taken.kind == OSTROGOSZ_UCP_ANSWER_DELIVERED &&
            hear(line, taken.value, answers))
            return 1;
    }
    return 0;
}

/* The whole capture, however long it is. */
static int run(struct line *line, FILE *capture, FILE *answers)
{
    static uint8_t block[4096]; /* static: the frame stays small */
    size_t got;
    int failed = 0;
    while (!failed && (got = fread(block, 1, sizeof block, capture)) > 0)
        failed = take(line, block, got, answers);
    clear(block, sizeof block);
    printf("octets %lu\n",
           (unsigned long)ostrogosz_ucp_receiver_octets(&line->receiver));
    return failed || ferror(capture);
}

int main(int argc, char **argv)
{
    static struct line line; /* static: not on the stack, and zero */
    FILE *capture = argc == 3 ? fopen(argv[1], "rb") : NULL;
    FILE *answers = capture ? fopen(argv[2], "wb") : NULL;
    int failed;
    if (answers == NULL) {
        fputs("usage: driver CAPTURE ANSWERS\n", stderr);
        return 2;
    }
    setvbuf(capture, NULL, _IONBF, 0);
    setvbuf(answers, NULL, _IONBF, 0);
    ostrogosz_ucp_receiver_start(&line.receiver);
    failed = run(&line, capture, answers);
    clear(&line, sizeof line);
    fclose(capture);
    if (fclose(answers) != 0 || failed) {
        fputs("driver: reading or writing failed\n", stderr);
        return 1;
    }
    return 0;
}
