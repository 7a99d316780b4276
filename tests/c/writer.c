/* Check and frame writer, called as a driver calls them. */
#include <string.h>

#include "expect.h"
#include "ostrogosz.h"
#include "output.h"

/* A body and its frame. */
struct vector {
    size_t body_length;
    uint8_t body[8];
    size_t frame_length;
    uint8_t frame[12];
    uint16_t check;
};

/* The heartbeat of the GDL90 public ICD Rev A, and document 01's frames. */
static const struct vector vectors[] = {
    {7,
     {0x00, 0x81, 0x41, 0xDB, 0xD0, 0x08, 0x02},
     11,
     {0x7E, 0x00, 0x81, 0x41, 0xDB, 0xD0, 0x08, 0x02, 0xB3, 0x8B, 0x7E},
     0x8BB3},
    {3,
     {0x2C, 0x02, 0x2B},
     7,
     {0x7E, 0x2C, 0x02, 0x2B, 0xC5, 0xE7, 0x7E},
     0xE7C5},
    {2, {0x2C, 0x01}, 6, {0x7E, 0x2C, 0x01, 0x01, 0x2C, 0x7E}, 0x2C01},
    {1, {0x00}, 5, {0x7E, 0x00, 0x00, 0x00, 0x7E}, 0x0000},
    {2,
     {0x7D, 0x7E},
     10,
     {0x7E, 0x7D, 0x5D, 0x7D, 0x5E, 0x7D, 0x5E, 0x7D, 0x5D, 0x7E},
     0x7D7E},
};

static struct ostrogosz_written write_frame(const uint8_t *body, size_t length,
                                            size_t room)
{
    return ostrogosz_ucp_write_frame(body, length, fresh_output(), room);
}

static void try_vector(const struct vector *v)
{
    struct ostrogosz_written written;

    EXPECT(ostrogosz_ucp_frame_check(v->body, v->body_length) == v->check);

    written = write_frame(v->body, v->body_length, OSTROGOSZ_UCP_LONGEST_FRAME);
    EXPECT(wrote(written, v->frame, v->frame_length));

    written = write_frame(v->body, v->body_length, v->frame_length);
    EXPECT(wrote(written, v->frame, v->frame_length));

    written = write_frame(v->body, v->body_length, v->frame_length - 1);
    EXPECT(refused(written, OSTROGOSZ_REFUSAL_OUTPUT_LENGTH));
}

static void try_lengths(void)
{
    static const uint8_t zeros[OSTROGOSZ_UCP_LONGEST_BODY + 1] = {0};
    struct ostrogosz_written written;

    EXPECT(refused(write_frame(zeros, 0, ROOM), 7));
    EXPECT(refused(write_frame(zeros, 437, ROOM), 7));
    /* 7 is tested before 8. */
    EXPECT(refused(write_frame(zeros, 0, 0), 7));
    EXPECT(refused(write_frame(zeros, 437, 0), 7));

    written = write_frame(zeros, 436, ROOM);
    EXPECT(written.refusal == 0 && written.length == 440 && kept_from(440));
}

/* Every octet is escaped, those of the check too. */
static void try_longest_frame(void)
{
    uint8_t body[OSTROGOSZ_UCP_LONGEST_BODY];
    struct ostrogosz_written written;

    memset(body, 0x7E, sizeof body);
    body[1] = body[373] = 0x7D;

    written = write_frame(body, sizeof body, OSTROGOSZ_UCP_LONGEST_FRAME);
    EXPECT(written.refusal == 0);
    EXPECT(written.length == OSTROGOSZ_UCP_LONGEST_FRAME);
    EXPECT(output[OSTROGOSZ_UCP_LONGEST_FRAME - 1] == 0x7E);
    EXPECT(kept_from(OSTROGOSZ_UCP_LONGEST_FRAME));

    written = write_frame(body, sizeof body, OSTROGOSZ_UCP_LONGEST_FRAME - 1);
    EXPECT(refused(written, OSTROGOSZ_REFUSAL_OUTPUT_LENGTH));
}

/* Where a length is 0 the pointer is never followed. */
static void try_no_pointer(void)
{
    static const uint8_t body[] = {0x2C, 0x01};
    struct ostrogosz_written written;

    EXPECT(ostrogosz_ucp_frame_check(NULL, 0) == 0);
    EXPECT(refused(write_frame(NULL, 0, ROOM), 7));

    written = ostrogosz_ucp_write_frame(body, sizeof body, NULL, 0);
    EXPECT(written.refusal == 8 && written.length == 0);
    written = ostrogosz_ucp_write_frame(NULL, 0, NULL, 0);
    EXPECT(written.refusal == 7 && written.length == 0);
}

int main(void)
{
    size_t i;

    for (i = 0; i < sizeof vectors / sizeof vectors[0]; i++) {
        try_vector(&vectors[i]);
    }
    try_lengths();
    try_longest_frame();
    try_no_pointer();
    return finish();
}
