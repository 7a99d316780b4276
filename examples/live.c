/*
 * An example driver: several lines live, each a serial port.
 *
 *   live PORT...
 *
 * It opens the ports raw, waits for octets of any of them (poll), and keeps a
 * receiver for each: a line's stretch goes on over as many reads as it takes,
 * whatever the other lines bring in between. A Message Request for the Control
 * message is answered, on the line that it came from, with the Control that was
 * last heard there. It ends when every port has hung up, with one line for each
 * that says what came over it.
 *
 * Every message lies in its line's memory and nowhere else; that is cleared
 * when the port hangs up.
 */
#define _DEFAULT_SOURCE
#include <errno.h>
#include <fcntl.h>
#include <poll.h>
#include <stdio.h>
#include <termios.h>
#include <unistd.h>

#include "ostrogosz.h"

enum { MOST_LINES = 8 };

/* What belongs to one line. */
struct line {
    struct ostrogosz_ucp_receiver receiver;
    uint8_t octets[256]; /* as read from the port */
    uint8_t body[OSTROGOSZ_UCP_LONGEST_BODY];
    uint8_t frame[OSTROGOSZ_UCP_LONGEST_FRAME];
    struct ostrogosz_ucp_request request;
    struct ostrogosz_ucp_control control; /* the last one heard */
    int heard;                            /* whether one was */
    unsigned long bodies, refusals, answers;
};

/* Stores that the compiler may not leave out, though nothing reads them. */
static void clear(void *memory, size_t length)
{
    volatile uint8_t *octets = (volatile uint8_t *)memory;
    while (length > 0) {
        length--;
        octets[length] = 0;
    }
}

/* A serial port that hands on every octet as it comes; 115200 baud. */
static int open_port(const char *path)
{
    struct termios settings;
    int port = open(path, O_RDWR | O_NOCTTY);
    if (port < 0)
        return -1;
    if (tcgetattr(port, &settings) == 0) {
        cfmakeraw(&settings);
        cfsetspeed(&settings, B115200);
        if (tcsetattr(port, TCSANOW, &settings) == 0)
            return port;
    }
    close(port);
    return -1;
}

static int write_all(int port, const uint8_t *octets, size_t length)
{
    while (length > 0) {
        ssize_t put = write(port, octets, length);
        if (put < 0 && errno != EINTR)
            return -1;
        if (put > 0) {
            octets += put;
            length -= (size_t)put;
        }
    }
    return 0;
}

/* Sends the Control that was last heard. */
static int answer(struct line *line, int port)
{
    struct ostrogosz_written sent =
        ostrogosz_ucp_send_control(&line->control, line->frame);
    if (sent.refusal != 0 || write_all(port, line->frame, sent.length) != 0)
        return -1;
    line->answers++;
    return 0;
}

/* One delivered body. */
static int hear(struct line *line, size_t length, int port)
{
    struct ostrogosz_ucp_id id = ostrogosz_ucp_read_id(line->body, length);
    line->bodies++;
    if (id.refusal != 0)
        return 0;
    if (id.id == OSTROGOSZ_UCP_ID_CONTROL &&
        ostrogosz_ucp_read_control(line->body, length, &line->control) == 0)
        line->heard = 1;
    if (id.id == OSTROGOSZ_UCP_ID_REQUEST &&
        ostrogosz_ucp_read_request(line->body, length, &line->request) == 0 &&
        line->request.requested_id == OSTROGOSZ_UCP_ID_CONTROL && line->heard)
        return answer(line, port);
    return 0;
}

/* The octets that a read brought, up to the last of them. */
static int take(struct line *line, size_t length, int port)
{
    size_t at = 0;
    while (at < length) {
        struct ostrogosz_ucp_taken taken = ostrogosz_ucp_receiver_receive_slice(
            &line->receiver, line->octets + at, length - at, line->body,
            sizeof line->body);
        at += taken.taken;
        if (taken.kind == OSTROGOSZ_UCP_ANSWER_REFUSED)
            line->refusals++;
        if (taken.kind == OSTROGOSZ_UCP_ANSWER_DELIVERED &&
            hear(line, taken.value, port) != 0)
            return -1;
    }
    return 0;
}

/* What a port has; -1 where it has hung up or failed. */
static int serve(struct line *line, int port)
{
    ssize_t got = read(port, line->octets, sizeof line->octets);
    if (got < 0)
        return errno == EINTR || errno == EAGAIN ? 0 : -1;
    if (got == 0)
        return -1;
    return take(line, (size_t)got, port);
}

/* The line's end: what came over it is said, and its memory cleared. */
static void finish(struct line *line, int port, const char *path)
{
    printf("%s: octets %lu, bodies %lu, refused %lu, answered %lu\n", path,
           (unsigned long)ostrogosz_ucp_receiver_octets(&line->receiver),
           line->bodies, line->refusals, line->answers);
    close(port);
    clear(line, sizeof *line);
}

int main(int argc, char **argv)
{
    static struct line lines[MOST_LINES];
    struct pollfd ports[MOST_LINES];
    int count = argc - 1, open_lines = count, i;
    if (count < 1 || count > MOST_LINES) {
        fprintf(stderr, "usage: live PORT... (1 to %d)\n", (int)MOST_LINES);
        return 2;
    }
    for (i = 0; i < count; i++) {
        ostrogosz_ucp_receiver_start(&lines[i].receiver);
        ports[i].fd = open_port(argv[i + 1]);
        ports[i].events = POLLIN;
        if (ports[i].fd < 0) {
            fprintf(stderr, "live: no serial port at %s\n", argv[i + 1]);
            return 1;
        }
    }
    while (open_lines > 0 &&
           (poll(ports, (nfds_t)count, -1) >= 0 || errno == EINTR)) {
        for (i = 0; i < count; i++) {
            /* Octets that came before a hang-up are taken first. */
            if (ports[i].fd >= 0 && ports[i].revents != 0 &&
                serve(&lines[i], ports[i].fd) != 0) {
                finish(&lines[i], ports[i].fd, argv[i + 1]);
                ports[i].fd = -1;
                open_lines--;
            }
        }
    }
    return 0;
}
