/* The trackball: what each call hands out and leaves in the six bytes, for every
 * byte that a host may send, at the ends of the sums and beyond them. */
#include "checks.h"

/* The numbers before and after what is lent to a call, and what they hold. */
enum { FENCE = 3, FILL = 0xA5, FRAME_FILL = 0xA5A5 };

/* Byte 1 of a trackball, and the bits of bytes 0 and 1 that are used. */
enum { REPORTING = 0x01, X_OVER = 0x02, Y_OVER = 0x04, OVERS = 0x06, USED = 0x07 };

/* The ends of a sum. */
enum { LOWEST = -256, HIGHEST = 255 };

/* A trackball and the places for its frames, with a fence around each. */
struct mouse {
    uint8_t bytes[FENCE + CALUGNID_TRACKBALL_BYTES + FENCE];
    uint16_t places[FENCE + CALUGNID_TRACKBALL_FRAMES + FENCE];
};

/* ---- The calls, and what is compared after each. */

/* Sets the six bytes, and the fence around them. */
static void prepare(struct mouse *mouse, uint8_t byte0, uint8_t byte1, int x, int y)
{
    const uint8_t six[CALUGNID_TRACKBALL_BYTES] = {
        byte0,      byte1,
        (uint8_t)x, (uint8_t)((unsigned)x >> 8),
        (uint8_t)y, (uint8_t)((unsigned)y >> 8),
    };

    memset(mouse->bytes, FILL, sizeof mouse->bytes);
    memcpy(mouse->bytes + FENCE, six, sizeof six);
}

/* Whether the six bytes are these, and the fence around them is unchanged. */
static bool holds(const struct mouse *mouse, uint8_t byte0, uint8_t byte1, int x, int y)
{
    struct mouse right;

    prepare(&right, byte0, byte1, x, y);
    return memcmp(mouse->bytes, right.bytes, sizeof right.bytes) == 0;
}

static void clear_places(uint16_t *places)
{
    for (size_t i = 0; i < FENCE + CALUGNID_TRACKBALL_FRAMES + FENCE; i++)
        places[i] = FRAME_FILL;
}

/* Whether a call handed out the frames of these bytes and left the places past
 * them, and the fence around all. */
static bool handed_out(const struct mouse *mouse, size_t count, const uint8_t *bytes, size_t length)
{
    struct mouse right;

    clear_places(right.places);
    for (size_t i = 0; i < length; i++)
        right.places[FENCE + i] = calugnid_frame(bytes[i]);
    return count == length && memcmp(mouse->places, right.places, sizeof right.places) == 0;
}

static void move(struct mouse *mouse, uint8_t buttons, int16_t x, int16_t y)
{
    calugnid_trackball_move(mouse->bytes + FENCE, buttons, x, y);
}

/* Whether a byte of the host has this reply. */
static bool replies(struct mouse *mouse, uint8_t byte, const uint8_t *reply, size_t length)
{
    size_t count;

    clear_places(mouse->places);
    count = calugnid_trackball_send(mouse->bytes + FENCE, byte, mouse->places + FENCE);
    return handed_out(mouse, count, reply, length);
}

/* Whether a byte has the reply of the rules, with this packet where it is EBh. */
static bool replies_by_rule(struct mouse *mouse, uint8_t byte, const uint8_t *packet)
{
    const uint8_t asked[] = {0xFA, packet[0], packet[1], packet[2]};
    static const uint8_t identified[] = {0xFA, 0x00}, reset[] = {0xFA, 0xAA, 0x00};
    static const uint8_t taken[] = {0xFA}, unknown[] = {0xFE};

    switch (byte) {
    case 0xEB: return replies(mouse, byte, asked, sizeof asked);
    case 0xF2: return replies(mouse, byte, identified, sizeof identified);
    case 0xF4: return replies(mouse, byte, taken, sizeof taken);
    case 0xF5: return replies(mouse, byte, taken, sizeof taken);
    case 0xFF: return replies(mouse, byte, reset, sizeof reset);
    default: return replies(mouse, byte, unknown, sizeof unknown);
    }
}

/* The same for a byte other than EBh. */
static bool sends(struct mouse *mouse, uint8_t byte)
{
    static const uint8_t none[] = {0, 0, 0};

    return replies_by_rule(mouse, byte, none);
}

static bool asked_packet(struct mouse *mouse, uint8_t first, uint8_t x, uint8_t y)
{
    const uint8_t packet[] = {first, x, y};

    return replies_by_rule(mouse, 0xEB, packet);
}

static bool reports(struct mouse *mouse, const uint8_t *bytes, size_t length)
{
    size_t count;

    clear_places(mouse->places);
    count = calugnid_trackball_report(mouse->bytes + FENCE, mouse->places + FENCE);
    return handed_out(mouse, count, bytes, length);
}

static bool reports_packet(struct mouse *mouse, uint8_t first, uint8_t x, uint8_t y)
{
    const uint8_t packet[] = {first, x, y};

    return reports(mouse, packet, sizeof packet);
}

static bool reports_nothing(struct mouse *mouse)
{
    return reports(mouse, NULL, 0);
}

/* ---- A start, and the names. */

static void try_start(void)
{
    static const uint8_t before[] = {0x00, 0x5A, 0xFF};
    struct mouse mouse;

    for (size_t i = 0; i < sizeof before; i++) {
        prepare(&mouse, 0, 0, 0, 0);
        memset(mouse.bytes + FENCE, before[i], CALUGNID_TRACKBALL_BYTES);
        calugnid_trackball_start(mouse.bytes + FENCE);
        CHECK(holds(&mouse, 0, 0, 0, 0));
        CHECK(reports_nothing(&mouse));
        CHECK(asked_packet(&mouse, 0x08, 0x00, 0x00));
        CHECK(holds(&mouse, 0, 0, 0, 0));
    }
}

/* The calls came with version 2. */
static void try_names(void)
{
    CHECK(CALUGNID_VERSION >= 2 && calugnid_library_version() == CALUGNID_VERSION);
    CHECK(CALUGNID_TRACKBALL_BYTES == 6 && CALUGNID_TRACKBALL_FRAMES == 4);
    CHECK(CALUGNID_TRACKBALL_READ_PACKET == 0xEB && CALUGNID_TRACKBALL_IDENTIFY == 0xF2);
    CHECK(CALUGNID_TRACKBALL_ENABLE == 0xF4 && CALUGNID_TRACKBALL_DISABLE == 0xF5);
    CHECK(CALUGNID_TRACKBALL_RESET == 0xFF);
}

/* The bits of a packet's first byte by their names. */
static void try_packet_names(void)
{
    struct mouse mouse;

    prepare(&mouse, 0, REPORTING, 0, 0);
    CHECK(reports_packet(&mouse, CALUGNID_PACKET_ONE, 0, 0));
    move(&mouse, CALUGNID_PACKET_LEFT, -1, 0);
    CHECK(reports_packet(&mouse, CALUGNID_PACKET_LEFT | CALUGNID_PACKET_ONE |
                                     CALUGNID_PACKET_X_SIGN, 0xFF, 0));
    move(&mouse, CALUGNID_PACKET_RIGHT, 0, -1);
    CHECK(reports_packet(&mouse, CALUGNID_PACKET_RIGHT | CALUGNID_PACKET_ONE |
                                     CALUGNID_PACKET_Y_SIGN, 0, 0xFF));
    move(&mouse, CALUGNID_PACKET_MIDDLE, 256, 0);
    CHECK(reports_packet(&mouse, CALUGNID_PACKET_MIDDLE | CALUGNID_PACKET_ONE |
                                     CALUGNID_PACKET_X_OVERFLOW, 0xFF, 0));
    move(&mouse, 0, 0, 256);
    CHECK(reports_packet(&mouse, CALUGNID_PACKET_ONE | CALUGNID_PACKET_Y_OVERFLOW, 0, 0xFF));
    move(&mouse, 1, 0, 0);
    CHECK(reports_packet(&mouse, 0x09, 0, 0));
    move(&mouse, 2, 0, 0);
    CHECK(reports_packet(&mouse, 0x0A, 0, 0));
    move(&mouse, 4, -257, -257);
    CHECK(reports_packet(&mouse, 0xFC, 0, 0));
}

/* The numbers handed out are frames: FAh is 7F4h, 00h is 600h. */
static void try_frames(void)
{
    struct mouse mouse;

    prepare(&mouse, 0, 0, 0, 0);
    CHECK(sends(&mouse, CALUGNID_TRACKBALL_IDENTIFY));
    CHECK(mouse.places[FENCE] == 0x7F4 && mouse.places[FENCE + 1] == 0x600);
    CHECK(mouse.places[FENCE + 2] == FRAME_FILL && mouse.places[FENCE + 3] == FRAME_FILL);
}

/* ---- Moves and packets. */

/* A move puts its bits 0-2 in place of the buttons. Its other bits are unread. */
static void try_buttons(void)
{
    struct mouse mouse;

    for (unsigned i = 0; i < 8 * 256; i++) {
        uint8_t before = (uint8_t)(i / 256), byte = (uint8_t)(i % 256), buttons = byte & USED;

        prepare(&mouse, before, REPORTING, 0, 0);
        move(&mouse, byte, 1, 2);
        CHECK(holds(&mouse, buttons, REPORTING, 1, 2));
        CHECK(reports_packet(&mouse, 0x08 | buttons, 1, 2));
        CHECK(holds(&mouse, buttons, REPORTING, 0, 0));
    }
}

/* Two steps of x from 0, the sum after each, and the first byte and the byte of
 * x in a packet after both. */
struct edge {
    int16_t first, then;
    int after_first, after_both;
    uint8_t bits, low;
};

static const struct edge edges[] = {
    {0, 0, 0, 0, 0x08, 0x00},
    {1, -2, 1, -1, 0x18, 0xFF},
    {127, 1, 127, 128, 0x08, 0x80},
    {-128, -1, -128, -129, 0x18, 0x7F},
    {254, 1, 254, 255, 0x08, 0xFF},
    {255, 0, 255, 255, 0x08, 0xFF},
    {256, 0, 255, 255, 0x48, 0xFF},
    {255, 1, 255, 255, 0x48, 0xFF},
    {256, -10, 255, 245, 0x48, 0xF5},
    {256, -511, 255, -256, 0x58, 0x00},
    {255, -511, 255, -256, 0x18, 0x00},
    {255, -512, 255, -256, 0x58, 0x00},
    {-255, -1, -255, -256, 0x18, 0x00},
    {-256, 0, -256, -256, 0x18, 0x00},
    {-257, 0, -256, -256, 0x58, 0x00},
    {-256, -1, -256, -256, 0x58, 0x00},
    {-257, 256, -256, 0, 0x48, 0x00},
    {-257, 511, -256, 255, 0x48, 0xFF},
    {-256, 511, -256, 255, 0x08, 0xFF},
    {-256, 512, -256, 255, 0x48, 0xFF},
    {32767, 0, 255, 255, 0x48, 0xFF},
    {-32768, 0, -256, -256, 0x58, 0x00},
    {255, 32767, 255, 255, 0x48, 0xFF},
    {-256, -32768, -256, -256, 0x58, 0x00},
    {32767, -32768, 255, -256, 0x58, 0x00},
    {-32768, 32767, -256, 255, 0x48, 0xFF},
};

enum { EDGES = sizeof edges / sizeof edges[0] };

/* The overflows as bits of byte 1. */
static uint8_t overs(bool x, bool y)
{
    return (uint8_t)(x * X_OVER | y * Y_OVER);
}

static bool beyond(int sum)
{
    return sum < LOWEST || sum > HIGHEST;
}

static int held(int sum)
{
    return sum < LOWEST ? LOWEST : sum > HIGHEST ? HIGHEST : sum;
}

/* Both packets of two edges, the one asked for and the one reported: y has its
 * sign and its overflow one bit above those of x. */
static void try_two_edges(const struct edge *x, const struct edge *y)
{
    uint8_t bits = (uint8_t)(x->bits | (y->bits & 0x50) << 1);
    uint8_t once = overs(beyond(x->first), beyond(y->first));
    uint8_t both = overs(x->bits & 0x40, y->bits & 0x40);
    struct mouse mouse, other;

    prepare(&mouse, 0, 0, 0, 0);
    move(&mouse, 0, x->first, y->first);
    CHECK(holds(&mouse, 0, once, x->after_first, y->after_first));
    move(&mouse, 0, x->then, y->then);
    CHECK(holds(&mouse, 0, both, x->after_both, y->after_both));
    CHECK(reports_nothing(&mouse));
    CHECK(holds(&mouse, 0, both, x->after_both, y->after_both));
    other = mouse;
    CHECK(asked_packet(&mouse, bits, x->low, y->low));
    CHECK(holds(&mouse, 0, 0, 0, 0));
    CHECK(sends(&other, CALUGNID_TRACKBALL_ENABLE));
    CHECK(holds(&other, 0, both | REPORTING, x->after_both, y->after_both));
    CHECK(reports_packet(&other, bits, x->low, y->low));
    CHECK(holds(&other, 0, REPORTING, 0, 0));
}

/* Each edge of x alone, of y alone, and with each of the other. */
static void try_edges(void)
{
    for (size_t i = 0; i < EDGES; i++)
        for (size_t j = 0; j < EDGES; j++)
            try_two_edges(&edges[i], &edges[j]);
}

/* Every step from the ends and from the middle, x one way and y the other. */
static void try_steps(void)
{
    static const int sums[] = {LOWEST, -1, 0, HIGHEST};
    struct mouse mouse;

    for (int step = -32768; step <= 32767; step++) {
        for (size_t i = 0; i < sizeof sums / sizeof sums[0]; i++) {
            int x = sums[i] + step, y = sums[i] - step - 1;

            prepare(&mouse, 0, 0, sums[i], sums[i]);
            move(&mouse, 0, (int16_t)step, (int16_t)(-step - 1));
            CHECK(holds(&mouse, 0, overs(beyond(x), beyond(y)), held(x), held(y)));
        }
    }
}

/* Every sum goes into a packet as nine bits. */
static void try_sums(void)
{
    struct mouse mouse;

    for (int sum = LOWEST; sum <= HIGHEST; sum++) {
        unsigned x = (unsigned)sum & 0x1FF, y = x ^ 0x1FF;

        prepare(&mouse, 5, REPORTING, sum, -sum - 1);
        CHECK(reports_packet(&mouse, (uint8_t)(0x0D | x >> 8 << 4 | y >> 8 << 5), (uint8_t)x,
                             (uint8_t)y));
        CHECK(holds(&mouse, 5, REPORTING, 0, 0));
    }
}

/* A second report at once has no movement, and the buttons still. */
static void try_second_report(void)
{
    struct mouse mouse;

    prepare(&mouse, 0, REPORTING, 0, 0);
    move(&mouse, 3, 300, -20);
    CHECK(reports_packet(&mouse, 0x6B, 0xFF, 0xEC));
    CHECK(reports_packet(&mouse, 0x0B, 0x00, 0x00));
    CHECK(asked_packet(&mouse, 0x0B, 0x00, 0x00));
    CHECK(holds(&mouse, 3, REPORTING, 0, 0));
}

/* Moves count while reporting is off. */
static void try_moves_while_off(void)
{
    struct mouse mouse;

    prepare(&mouse, 0, REPORTING, 0, 0);
    CHECK(sends(&mouse, CALUGNID_TRACKBALL_DISABLE));
    move(&mouse, 1, 10, -300);
    move(&mouse, 2, 20, 6);
    CHECK(reports_nothing(&mouse));
    CHECK(holds(&mouse, 2, Y_OVER, 30, -250));
    CHECK(sends(&mouse, CALUGNID_TRACKBALL_ENABLE));
    CHECK(reports_packet(&mouse, 0xAA, 0x1E, 0x06));
    CHECK(holds(&mouse, 2, REPORTING, 0, 0));
}

/* An overflow stays though the sum comes back, until a packet or FFh. */
static void try_overflow_stays(void)
{
    static const uint8_t bytes[] = {0xF4, 0xF5, 0xF2, 0xE9, 0x00};
    struct mouse mouse;

    prepare(&mouse, 0, 0, 0, 0);
    move(&mouse, 0, 256, -257);
    move(&mouse, 0, -255, 256);
    CHECK(holds(&mouse, 0, OVERS, 0, 0));
    for (size_t i = 0; i < sizeof bytes; i++)
        CHECK(sends(&mouse, bytes[i]));
    CHECK(holds(&mouse, 0, OVERS, 0, 0));
    CHECK(asked_packet(&mouse, 0xC8, 0x00, 0x00));
    CHECK(asked_packet(&mouse, 0x08, 0x00, 0x00));
    move(&mouse, 7, -257, 256);
    move(&mouse, 6, 5, -5);
    CHECK(holds(&mouse, 6, OVERS, -251, 250));
    CHECK(sends(&mouse, CALUGNID_TRACKBALL_RESET));
    CHECK(holds(&mouse, 6, 0, 0, 0));
    CHECK(asked_packet(&mouse, 0x0E, 0x00, 0x00));
}

/* ---- The bytes of a host. */

/* A byte sent to a trackball with these two bytes and with sums: its reply and
 * the six bytes, where the unused bits are 0. */
static void try_byte(uint8_t byte, uint8_t byte0, uint8_t byte1)
{
    uint8_t buttons = byte0 & USED, flags = byte1 & USED;
    const uint8_t packet[] = {(uint8_t)(0x28 | buttons | (flags & OVERS) << 5), 0x64, 0x9C};
    struct mouse mouse;

    prepare(&mouse, byte0, byte1, 100, -100);
    CHECK(replies_by_rule(&mouse, byte, packet));
    switch (byte) {
    case 0xEB:
        CHECK(holds(&mouse, buttons, flags & REPORTING, 0, 0));
        break;
    case 0xF4:
        CHECK(holds(&mouse, buttons, flags | REPORTING, 100, -100));
        break;
    case 0xF5:
        CHECK(holds(&mouse, buttons, flags & OVERS, 100, -100));
        break;
    case 0xFF:
        CHECK(holds(&mouse, buttons, 0, 0, 0));
        break;
    default:
        CHECK(holds(&mouse, buttons, flags, 100, -100));
    }
}

static void try_bytes(void)
{
    for (unsigned byte = 0; byte < 256; byte++)
        for (unsigned i = 0; i < 64; i++)
            try_byte((uint8_t)byte, (uint8_t)(i / 8), (uint8_t)(i % 8));
}

/* Whether a trackball reports after the byte. */
static bool reports_after(uint8_t byte, bool before)
{
    return byte == 0xF4 || (before && byte != 0xF5 && byte != 0xFF);
}

/* No byte is an argument to the one before: every two have the replies that each
 * has by itself. */
static void try_two_bytes(void)
{
    static const uint8_t still[] = {0x08, 0x00, 0x00};
    struct mouse mouse;

    for (unsigned i = 0; i < 256 * 256; i++) {
        uint8_t first = (uint8_t)(i / 256), then = (uint8_t)(i % 256);

        calugnid_trackball_start(mouse.bytes + FENCE);
        CHECK(replies_by_rule(&mouse, first, still));
        CHECK(replies_by_rule(&mouse, then, still));
        CHECK(mouse.bytes[FENCE + 1] == reports_after(then, reports_after(first, false)));
    }
}

/* F3h is followed by a rate on other mice. */
static void try_rate(void)
{
    static const uint8_t taken[] = {0xFA}, unknown[] = {0xFE};
    struct mouse mouse;

    prepare(&mouse, 1, Y_OVER, -256, 255);
    CHECK(replies(&mouse, 0xF3, unknown, 1) && replies(&mouse, 0x64, unknown, 1));
    CHECK(holds(&mouse, 1, Y_OVER, -256, 255));
    CHECK(replies(&mouse, 0xF3, unknown, 1) && replies(&mouse, 0xF4, taken, 1));
    CHECK(holds(&mouse, 1, Y_OVER | REPORTING, -256, 255));
}

/* ---- Six bytes that no call made. */

/* Any bits that are not used, in each call. */
static void try_unused_bits(void)
{
    static const uint8_t bytes[] = {0xEB, 0xF2, 0xF4, 0xF5, 0xFF, 0xFE};
    struct mouse mouse;

    for (unsigned i = 0; i < 256 * 256; i++) {
        uint8_t byte0 = (uint8_t)(i / 256), byte1 = (uint8_t)(i % 256);
        uint8_t buttons = byte0 & USED, flags = byte1 & USED;
        uint8_t first = (uint8_t)(0x18 | buttons | (flags & OVERS) << 5);

        for (size_t j = 0; j < sizeof bytes; j++)
            try_byte(bytes[j], byte0, byte1);
        prepare(&mouse, byte0, byte1, -7, 7);
        move(&mouse, byte1, 1, 1);
        CHECK(holds(&mouse, flags, flags, -6, 8));
        prepare(&mouse, byte0, byte1, -7, 7);
        if (flags & REPORTING) {
            CHECK(reports_packet(&mouse, first, 0xF9, 0x07));
            CHECK(holds(&mouse, buttons, REPORTING, 0, 0));
        } else {
            CHECK(reports_nothing(&mouse));
            CHECK(holds(&mouse, buttons, flags, -7, 7));
        }
    }
}

/* Sums beyond the ends, and their sign and low byte in a packet by x alone. */
struct far_sum {
    int sum;
    uint8_t bits, low;
};

static const struct far_sum far_sums[] = {
    {256, 0x08, 0x00},  {300, 0x08, 0x2C},  {511, 0x08, 0xFF},  {512, 0x08, 0x00},
    {513, 0x08, 0x01},  {32767, 0x08, 0xFF}, {-257, 0x18, 0xFF}, {-300, 0x18, 0xD4},
    {-512, 0x18, 0x00}, {-513, 0x18, 0xFF}, {-32767, 0x18, 0x01}, {-32768, 0x18, 0x00},
};

enum { FAR_SUMS = sizeof far_sums / sizeof far_sums[0] };

/* A packet has the sign and the low byte of each, and sums are 0 after it and
 * after FFh. Nothing else that sends changes them. */
static void try_far_packets(const struct far_sum *x, const struct far_sum *y, uint8_t flags)
{
    static const uint8_t leaving[] = {0xF2, 0x00, 0xF4, 0xF5};
    uint8_t bits = (uint8_t)(x->bits | (y->bits & 0x10) << 1 | (flags & OVERS) << 5);
    struct mouse mouse;

    prepare(&mouse, 0, flags, x->sum, y->sum);
    CHECK(asked_packet(&mouse, bits, x->low, y->low));
    CHECK(holds(&mouse, 0, flags & REPORTING, 0, 0));
    prepare(&mouse, 0, flags | REPORTING, x->sum, y->sum);
    CHECK(reports_packet(&mouse, bits, x->low, y->low));
    CHECK(holds(&mouse, 0, REPORTING, 0, 0));
    prepare(&mouse, 0, flags, x->sum, y->sum);
    for (size_t i = 0; i < sizeof leaving; i++)
        CHECK(sends(&mouse, leaving[i]));
    CHECK(reports_nothing(&mouse));
    CHECK(holds(&mouse, 0, flags & OVERS, x->sum, y->sum));
    CHECK(sends(&mouse, CALUGNID_TRACKBALL_RESET));
    CHECK(holds(&mouse, 0, 0, 0, 0));
}

/* A move adds to such a sum and holds at the ends. An overflow is set only where
 * the new sum would be beyond an end. */
static void try_far_moves(int x, int y, uint8_t flags)
{
    static const int16_t steps[] = {0,   1,    -1,   44,    -44,    45,    -45,   -256,  256, -257,
                                    257, -511, -512, 32767, -32767, 32766, -32768};
    struct mouse mouse;

    for (size_t i = 0; i < sizeof steps / sizeof steps[0]; i++) {
        for (size_t j = 0; j < sizeof steps / sizeof steps[0]; j++) {
            int to_x = x + steps[i], to_y = y + steps[j];
            uint8_t after = flags | overs(beyond(to_x), beyond(to_y));

            prepare(&mouse, 0, flags, x, y);
            move(&mouse, 4, steps[i], steps[j]);
            CHECK(holds(&mouse, 4, after, held(to_x), held(to_y)));
        }
    }
}

static void try_far_sums(void)
{
    for (size_t i = 0; i < FAR_SUMS; i++) {
        for (size_t j = 0; j < FAR_SUMS; j++) {
            for (unsigned flags = 0; flags <= USED; flags++) {
                try_far_packets(&far_sums[i], &far_sums[j], (uint8_t)flags);
                try_far_moves(far_sums[i].sum, far_sums[j].sum, (uint8_t)flags);
            }
        }
    }
}

/* A step that brings such a sum within the ends, and steps that do not. */
static void try_far_steps(void)
{
    struct mouse mouse;

    prepare(&mouse, 0, 0, 300, -301);
    move(&mouse, 0, -45, 45);
    CHECK(holds(&mouse, 0, 0, 255, -256));
    prepare(&mouse, 0, 0, 300, -301);
    move(&mouse, 0, -44, 44);
    CHECK(holds(&mouse, 0, OVERS, 255, -256));
    prepare(&mouse, 0, 0, 32767, -32768);
    move(&mouse, 0, 32767, -32768);
    CHECK(holds(&mouse, 0, OVERS, 255, -256));
    prepare(&mouse, 0, 0, 32767, -32768);
    move(&mouse, 0, -32768, 32767);
    CHECK(holds(&mouse, 0, 0, -1, -1));
}

/* ---- With a controller. */

/* Whether a frame brings the host this byte as the mouse's, with an interrupt,
 * and no other frame is taken until the host has read it. */
static bool delivers(uint8_t *state, uint16_t frame, uint8_t byte)
{
    uint8_t status = CALUGNID_STATUS_OBF | CALUGNID_STATUS_SWITCH | CALUGNID_STATUS_MOUSE;

    return calugnid_ready(state, CALUGNID_MOUSE_FRAME) &&
           leaves(state, CALUGNID_MOUSE_FRAME, frame, status, 0x03 | CALUGNID_P2_MIRQ) &&
           !calugnid_ready(state, CALUGNID_MOUSE_FRAME) && reads(state, byte, false) &&
           calugnid_status(state) == CALUGNID_STATUS_SWITCH;
}

/* EBh from the host to the trackball, and the reply back to the host. */
static void try_delivery(void)
{
    static const uint8_t reply[] = {0xFA, 0x59, 0x00, 0x07};
    uint8_t state[CALUGNID_STATE_BYTES], answer[CALUGNID_ANSWER_BYTES];
    struct mouse mouse;

    prepare(&mouse, 0, 0, 0, 0);
    move(&mouse, CALUGNID_PACKET_LEFT, -300, 7);
    calugnid_start(state, CALUGNID_ORDINARY, 0);
    CHECK(leaves(state, CALUGNID_WRITE_COMMAND, CALUGNID_CMD_WRITE_MODE, 0x18, 0x4B));
    CHECK(leaves(state, CALUGNID_WRITE_DATA, CALUGNID_MODE_EMI, 0x10, 0x03));
    CHECK(leaves(state, CALUGNID_WRITE_COMMAND, CALUGNID_CMD_SEND_TO_MOUSE, 0x18, 0x03));
    calugnid_event(state, CALUGNID_WRITE_DATA, CALUGNID_TRACKBALL_READ_PACKET, answer);
    CHECK(answer[CALUGNID_ANSWER_DESTINATION] == CALUGNID_TO_MOUSE);
    CHECK(replies(&mouse, calugnid_sent_byte(state), reply, sizeof reply));
    CHECK(!calugnid_ready(state, CALUGNID_MOUSE_FRAME)); /* EBh is not taken yet */
    CHECK(leaves(state, CALUGNID_BYTE_TAKEN, 0, 0x10, 0x03));
    for (size_t i = 0; i < sizeof reply; i++)
        CHECK(delivers(state, mouse.places[FENCE + i], reply[i]));
    CHECK(holds(&mouse, CALUGNID_PACKET_LEFT, 0, 0, 0));
}

int main(void)
{
    try_start();
    try_names();
    try_packet_names();
    try_frames();
    try_buttons();
    try_edges();
    try_steps();
    try_sums();
    try_second_report();
    try_moves_while_off();
    try_overflow_stays();
    try_bytes();
    try_two_bytes();
    try_rate();
    try_unused_bits();
    try_far_sums();
    try_far_steps();
    try_delivery();
    return failures != 0;
}
