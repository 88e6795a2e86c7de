/* What the tests of saved images share: images made from the rules, controllers
 * in the middle of work, space with a fence around it, and loads. */
#ifndef IMAGES_H
#define IMAGES_H

#include "checks.h"

enum { VERSION = 0x5A };

enum {
    STATE = CALUGNID_STATE_BYTES,
    TABLE = CALUGNID_TABLE_BYTES,
    NEW_IMAGE = CALUGNID_IMAGE_BYTES,
    OLD_IMAGE = CALUGNID_EDITION_1_BYTES
};

/* The bytes before and after what is lent to a call, and what they hold. */
enum { FENCE = 8, FILL = 0xA5 };

/* The most that is lent for an image or for answers. */
enum { ROOM_MOST = 80 };

/* Bytes 60-63 of a controller without options, which edition 1 leaves out. */
static const uint8_t added[] = {0x00, 0x3F, 0x03, 0x00};

/* An image of either edition, or what is left of one. */
struct image {
    uint8_t bytes[NEW_IMAGE];
    size_t length;
};

/* Space in the middle that is lent, with a fence around it. */
struct room {
    uint8_t bytes[FENCE + ROOM_MOST + FENCE];
};

/* ---- Bytes of the rules, made without the library's saves. */

static inline size_t body_bytes(int edition)
{
    if (edition == 2)
        return BODY_BYTES;
    return EDITION_1_BODY_BYTES;
}

/* The image of the front of a state, in either edition. */
static inline void make_image(struct image *image, const uint8_t *state, int edition)
{
    size_t body = body_bytes(edition);

    memcpy(image->bytes, state, body);
    put_trailer(image->bytes, body, (uint8_t)edition);
    image->length = body + TRAILER_BYTES;
}

/* The same after its body was changed. */
static inline void put_right(struct image *image)
{
    put_trailer(image->bytes, image->length - TRAILER_BYTES,
                image->length == NEW_IMAGE ? 2 : 1);
}

/* The state that a load has to give. No table is the built-in one. */
static inline void loaded_state(uint8_t *state, const struct image *image, uint8_t version,
                                const uint8_t *table)
{
    memcpy(state, image->bytes, EDITION_1_BODY_BYTES);
    memcpy(state + EDITION_1_BODY_BYTES,
           image->length == NEW_IMAGE ? image->bytes + EDITION_1_BODY_BYTES : added, sizeof added);
    state[64] = version;
    if (table)
        memcpy(state + CALUGNID_STATE_TABLE, table, TABLE);
    else
        built_in_table(state + CALUGNID_STATE_TABLE);
}

static inline void clear(struct room *room)
{
    memset(room->bytes, FILL, sizeof room->bytes);
}

/* Whether a call wrote these bytes to the front of a room, and nothing else. */
static inline bool wrote(const struct room *room, const uint8_t *bytes, size_t count)
{
    struct room right;

    clear(&right);
    if (count != 0)
        memcpy(right.bytes + FENCE, bytes, count);
    return memcmp(room->bytes, right.bytes, sizeof right.bytes) == 0;
}

/* ---- Controllers in the middle of work. */

static uint32_t drawn = 1;

/* A number below the limit, from a linear congruential generator. */
static inline unsigned draw(unsigned below)
{
    drawn = drawn * 1664525u + 1013904223u;
    return (drawn >> 16) % below;
}

static inline void event(uint8_t *state, uint8_t kind, unsigned value)
{
    uint8_t answer[CALUGNID_ANSWER_BYTES];

    calugnid_event(state, kind, (uint16_t)value, answer);
}

/* Keys that open the lock of close_lock, others, and damaged frames. */
static inline unsigned draw_frame(void)
{
    static const uint8_t bytes[] = {0x1C, 0x32, 0xF0, 0x12, 0xE0};
    static const uint16_t damages[] = {0, 0, 0, 0, 0, 0x001, 0x200, 0x400};
    uint16_t frame = calugnid_frame(bytes[draw(sizeof bytes)]);

    return frame ^ damages[draw(sizeof damages / sizeof damages[0])];
}

/* Loads the lock code 1Eh 30h and locks, where the controller has these commands. */
static inline void close_lock(uint8_t *state)
{
    static const uint8_t code[] = {0x1E, 0x30, 0x00};

    event(state, CALUGNID_WRITE_COMMAND, CALUGNID_CMD_LOAD_CODE);
    for (size_t i = 0; i < sizeof code; i++)
        event(state, CALUGNID_WRITE_DATA, code[i]);
    event(state, CALUGNID_WRITE_COMMAND, CALUGNID_CMD_LOCK);
}

static inline void draw_event(uint8_t *state)
{
    static const uint8_t commands[] = {0x60, 0x74, 0xA5, 0xAE, 0xA8, 0xC1, 0xC2,
                                       0xC8, 0xD1, 0xD2, 0xD3, 0xD4, 0xAA, 0xB4};

    switch (draw(12)) {
    case 0: case 1: event(state, CALUGNID_READ_DATA, 0); break;
    case 2: event(state, CALUGNID_WRITE_COMMAND, draw(256)); break;
    case 3: case 4:
        event(state, CALUGNID_WRITE_COMMAND, commands[draw(sizeof commands)]);
        break;
    case 5: event(state, CALUGNID_WRITE_DATA, draw(256)); break;
    case 6: case 7: event(state, CALUGNID_KEYBOARD_FRAME, draw_frame()); break;
    case 8: event(state, CALUGNID_MOUSE_FRAME, draw_frame()); break;
    case 9: event(state, draw(2) ? CALUGNID_BYTE_TAKEN : CALUGNID_BYTE_TIMED_OUT, 0); break;
    case 10: event(state, CALUGNID_PINS, draw(256)); break;
    default:
        if (draw(4) == 0)
            close_lock(state);
    }
}

/* A controller after a number of drawn events. No table is the built-in one. */
static inline void work(uint8_t *state, uint8_t options, const uint8_t *table, int events)
{
    if (table)
        CHECK(calugnid_start_with_table(state, options, VERSION, table, TABLE) == 0);
    else
        calugnid_start(state, options, VERSION);
    event(state, CALUGNID_WRITE_COMMAND, CALUGNID_CMD_SELF_TEST);
    for (int i = 0; i < events; i++)
        draw_event(state);
}

/* ---- Loads, each over a state that holds something else and has a fence. */

struct target {
    uint8_t bytes[FENCE + STATE + FENCE];
};

/* One of three: no controller, one in AT mode, one with a table of its own. */
static inline void make_target(struct target *target, unsigned choice)
{
    uint8_t table[TABLE];

    memset(target->bytes, FILL, sizeof target->bytes);
    changed_about(table);
    if (choice % 3 == 1)
        calugnid_start(target->bytes + FENCE, CALUGNID_PC_AT | CALUGNID_MOUSE_LOCK, 0x33);
    if (choice % 3 == 2)
        CHECK(calugnid_start_with_table(target->bytes + FENCE, CALUGNID_SECOND_SET, 0xC3, table,
                                        TABLE) == 0);
}

/* No table is the built-in one. */
static inline uint8_t load(uint8_t *state, uint8_t version, const uint8_t *table,
                           size_t table_length, const uint8_t *image, size_t length)
{
    return table ? calugnid_load_with_table(state, version, table, table_length, image, length)
                 : calugnid_load(state, version, image, length);
}

/* Whether a load of the bytes returns this number and, if that is 0, gives this
 * state in all 321 bytes; refused, it has to leave the state as it was. */
static inline bool loads(uint8_t number, const uint8_t *right, uint8_t version,
                         const uint8_t *table, size_t table_length, const uint8_t *image,
                         size_t length)
{
    for (unsigned choice = 0; choice < 3; choice++) {
        struct target target, after;

        make_target(&target, choice);
        after = target;
        if (number == CALUGNID_ACCEPTED)
            memcpy(after.bytes + FENCE, right, STATE);
        if (load(target.bytes + FENCE, version, table, table_length, image, length) != number ||
            memcmp(target.bytes, after.bytes, sizeof after.bytes) != 0)
            return false;
    }
    return true;
}

#endif
