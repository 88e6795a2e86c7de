/* Saved images of both editions: what a save writes, which bytes are an image and
 * which bodies a load takes, and that a load gives every byte of a state again. */
#include "images.h"

/* ---- Sizes and saves. */

static void try_sizes(void)
{
    CHECK(CALUGNID_VERSION == 3 && calugnid_fits());
    CHECK(NEW_IMAGE == 72 && OLD_IMAGE == 68 && STATE == 321);
    CHECK(NEW_IMAGE == BODY_BYTES + TRAILER_BYTES);
    CHECK(OLD_IMAGE == EDITION_1_BODY_BYTES + TRAILER_BYTES);
    CHECK(CALUGNID_NEEDS_EDITION_2 == 16);
    CHECK(strcmp(calugnid_refusal_name(16), "image needs edition 2") == 0);
}

/* The images of fresh controllers, each byte written out: P1, P20 and P21, the
 * command byte, bytes 60-63 and the trailer. */
static void try_fresh_images(void)
{
    static const uint8_t ends[][12] = {
        {0x00, 0x3F, 0x03, 0x00, 0x40, 0x00, 0x72, 0x43, 0x02, 0x4B, 0x42, 0x43},
        {0x07, 0x3F, 0x03, 0x00, 0x40, 0x00, 0x79, 0x43, 0x02, 0x4B, 0x42, 0x43},
    };
    static const uint8_t options[] = {
        CALUGNID_ORDINARY,
        CALUGNID_MOUSE_LOCK | CALUGNID_PC_AT | CALUGNID_SECOND_SET,
    };
    uint8_t state[STATE], image[NEW_IMAGE];

    for (size_t i = 0; i < sizeof options; i++) {
        uint8_t right[NEW_IMAGE] = {0};

        right[2] = 0xFF;
        right[3] = 0x03;
        right[28] = 0x70;
        memcpy(right + OPTIONS_BYTE, ends[i], sizeof ends[i]);
        calugnid_start(state, options[i], VERSION);
        CHECK(calugnid_save(state, image, sizeof image) == CALUGNID_ACCEPTED);
        CHECK(memcmp(image, right, sizeof right) == 0);
    }
}

/* Bytes that are no controller's are saved as they are; check 11 refuses them. */
static void try_save_of_anything(void)
{
    uint8_t state[STATE];
    struct image image, right;

    memset(state, FILL, sizeof state);
    make_image(&right, state, 2);
    image.length = NEW_IMAGE;
    CHECK(calugnid_save(state, image.bytes, image.length) == CALUGNID_ACCEPTED);
    CHECK(memcmp(image.bytes, right.bytes, sizeof right.bytes) == 0);
    CHECK(loads(CALUGNID_BAD_BODY, NULL, VERSION, NULL, 0, image.bytes, image.length));
}

/* Into every length of space up to 80, those of 71, 72 and 80 bytes among them.
 * The state is only read. */
static void try_saves(uint8_t options)
{
    uint8_t state[STATE], before[STATE];
    struct image right;
    struct room room;

    work(state, options, NULL, 60);
    memcpy(before, state, sizeof before);
    make_image(&right, state, 2);
    for (size_t length = 0; length <= ROOM_MOST; length++) {
        bool fits = length >= NEW_IMAGE;

        clear(&room);
        CHECK(calugnid_save(state, room.bytes + FENCE, length) ==
              (fits ? CALUGNID_ACCEPTED : CALUGNID_NO_SAVE_ROOM));
        CHECK(wrote(&room, right.bytes, fits ? NEW_IMAGE : 0));
        CHECK(memcmp(state, before, sizeof before) == 0);
    }
}

/* ---- Loads. */

/* Both editions, without and with a table, at the end of up to nine bytes more.
 * The image and the table are only read. */
static void try_loads(uint8_t options)
{
    uint8_t state[STATE], right[STATE], table[TABLE], kept[TABLE];
    uint8_t bytes[9 + NEW_IMAGE];
    struct image image;

    changed_about(table);
    memcpy(kept, table, sizeof kept);
    work(state, options, table, 80);
    for (int edition = 1; edition <= 2; edition++) {
        make_image(&image, state, edition);
        for (size_t front = 0; front <= 9; front++) {
            memset(bytes, (int)(0x40 + front), sizeof bytes);
            memcpy(bytes + front, image.bytes, image.length);
            loaded_state(right, &image, VERSION, NULL);
            CHECK(loads(0, right, VERSION, NULL, 0, bytes, front + image.length));
            loaded_state(right, &image, (uint8_t)front, table);
            CHECK(loads(0, right, (uint8_t)front, table, TABLE, bytes, front + image.length));
            CHECK(memcmp(bytes + front, image.bytes, image.length) == 0);
        }
    }
    CHECK(memcmp(table, kept, sizeof kept) == 0);
}

/* A bit for each situation that the drawn events have to reach. */
static unsigned situations(const uint8_t *state)
{
    unsigned found = 0;

    found |= calugnid_locked(state) ? 1u : 0u;
    found |= state[6] ? 2u : 0u;                    /* overlay */
    found |= state[63] ? 4u : 0u;                   /* transmit time-out */
    found |= state[61] != added[1] ? 8u : 0u;       /* latches of P10-P15 */
    found |= state[62] != added[2] ? 16u : 0u;      /* of P22, P23, P25 */
    found |= state[OPTIONS_BYTE] & 8 ? 32u : 0u;    /* D1h's permission */
    found |= state[10] && state[4] == 3 ? 64u : 0u; /* a code being loaded */
    return found;
}

/* A state saved and loaded after each event is the same in all 321 bytes, and so
 * is its image. The next event goes on from the loaded state. */
static void try_restoring(uint8_t options, const uint8_t *table, unsigned *seen)
{
    uint8_t state[STATE], image[NEW_IMAGE], again[NEW_IMAGE];
    struct target target;

    for (int i = 0; i < 3000; i++) {
        if (i % 150 == 0)
            work(state, options, table, 0);
        draw_event(state);
        make_target(&target, draw(3));
        CHECK(calugnid_save(state, image, sizeof image) == 0);
        CHECK(load(target.bytes + FENCE, VERSION, table, TABLE, image, sizeof image) == 0);
        CHECK(memcmp(target.bytes + FENCE, state, sizeof state) == 0);
        CHECK(calugnid_save(target.bytes + FENCE, again, sizeof again) == 0);
        CHECK(memcmp(again, image, sizeof again) == 0);
        memcpy(state, target.bytes + FENCE, sizeof state);
        *seen |= situations(state);
    }
}

static void try_restoring_all(void)
{
    uint8_t table[TABLE];
    unsigned seen = 0;

    changed_about(table);
    for (uint8_t options = 0; options < OPTION_CHOICES; options++) {
        try_restoring(options, NULL, &seen);
        try_restoring(options, table, &seen);
    }
    CHECK(seen == 0x7F);
}

/* ---- The finder and check 10. */

/* Whether there is no image for any call that looks for one. */
static bool no_image(const uint8_t *bytes, size_t length)
{
    struct room room;

    clear(&room);
    return calugnid_find(bytes, length) == length && calugnid_edition(bytes, length) == 0 &&
           loads(CALUGNID_BAD_IMAGE, NULL, VERSION, NULL, 0, bytes, length) &&
           calugnid_move_to_edition_1(bytes, length, room.bytes + FENCE, ROOM_MOST) ==
               CALUGNID_BAD_IMAGE &&
           calugnid_move_to_edition_2(bytes, length, room.bytes + FENCE, ROOM_MOST) ==
               CALUGNID_BAD_IMAGE &&
           wrote(&room, NULL, 0);
}

/* Every length up to the image's, from its front and from its end. Before the
 * last bytes of an image its first ones stay in memory, but are not lent. */
static void try_lengths(uint8_t options)
{
    uint8_t state[STATE], bytes[5 + NEW_IMAGE];
    struct image image;

    work(state, options, NULL, 40);
    for (int edition = 1; edition <= 2; edition++) {
        make_image(&image, state, edition);
        for (size_t length = 0; length < image.length; length++) {
            CHECK(no_image(image.bytes, length));
            CHECK(no_image(image.bytes + image.length - length, length));
        }
        CHECK(calugnid_find(image.bytes, image.length) == 0);
        CHECK(calugnid_edition(image.bytes, image.length) == edition);
        for (size_t front = 1; front <= 5; front++) {
            memset(bytes, (int)front, sizeof bytes);
            memcpy(bytes + front, image.bytes, image.length);
            CHECK(calugnid_find(bytes, front + image.length) == front);
            CHECK(calugnid_edition(bytes, front + image.length) == edition);
            CHECK(no_image(bytes, front + image.length - 1));
        }
    }
}

/* Each byte of the body with one bit changed, and each byte of the trailer with
 * every other value. */
static void try_damages(uint8_t options)
{
    uint8_t state[STATE];
    struct image image;

    work(state, options, NULL, 40);
    for (int edition = 1; edition <= 2; edition++) {
        size_t body = body_bytes(edition);

        make_image(&image, state, edition);
        for (size_t i = 0; i < image.length; i++) {
            uint8_t kept = image.bytes[i];

            for (unsigned change = 1; change < 256; change = i < body ? 2 * change : change + 1) {
                image.bytes[i] = (uint8_t)(kept ^ change);
                CHECK(no_image(image.bytes, image.length));
            }
            image.bytes[i] = kept;
        }
        CHECK(calugnid_edition(image.bytes, image.length) == edition);
    }
}

/* A body of one edition, and a trailer with the sum, the distance and the number
 * of other editions. */
static void make_mixed(struct image *image, int body, int sum, int distance, int number)
{
    uint8_t state[STATE], *trailer;
    struct image summed;

    calugnid_start(state, CALUGNID_PC_AT | CALUGNID_SECOND_SET, VERSION);
    make_image(&summed, state, sum);
    make_image(image, state, body);
    trailer = image->bytes + image->length - TRAILER_BYTES;
    memcpy(trailer, summed.bytes + summed.length - TRAILER_BYTES, TRAILER_BYTES);
    trailer[0] = (uint8_t)body_bytes(distance);
    trailer[4] = (uint8_t)number;
}

/* Only a trailer that is of one edition throughout, with its body, is right. */
static void try_mixed_trailers(void)
{
    for (int i = 0; i < 16; i++) {
        int body = 1 + (i & 1), sum = 1 + (i >> 1 & 1);
        int distance = 1 + (i >> 2 & 1), number = 1 + (i >> 3);
        struct image image;

        make_mixed(&image, body, sum, distance, number);
        if (i == 0 || i == 15)
            CHECK(calugnid_edition(image.bytes, image.length) == number);
        else
            CHECK(no_image(image.bytes, image.length));
    }
}

/* ---- Body rules that edition 2 adds, and bodies that break none. */

/* The rules of bytes 60-63, as the data sheet has them. */
static bool four_kept(const uint8_t *four)
{
    bool at_mode = four[0] & CALUGNID_PC_AT, second = four[0] & CALUGNID_SECOND_SET;

    if (four[0] > 0x0F || four[1] > 0x3F || four[2] > 0x0F || four[2] & 4 || four[3] > 1)
        return false;
    if (!second && (four[1] != 0x3F || four[0] & 8))
        return false;
    if (!second && !at_mode && four[2] != 3)
        return false;
    return at_mode || !(four[2] & 8 || four[3]);
}

/* What a load and the way back make of an image whose four bytes are these. */
static void try_four(struct image *image, const uint8_t *four)
{
    uint8_t state[STATE], moved[OLD_IMAGE];
    bool kept = four_kept(four), plain = memcmp(four, added, sizeof added) == 0;

    memcpy(image->bytes + OPTIONS_BYTE, four, sizeof added);
    put_right(image);
    CHECK(calugnid_load(state, VERSION, image->bytes, image->length) ==
          (kept ? CALUGNID_ACCEPTED : CALUGNID_BAD_BODY));
    if (kept)
        CHECK(memcmp(state, image->bytes, BODY_BYTES) == 0);
    CHECK(calugnid_move_to_edition_1(image->bytes, image->length, moved, sizeof moved) ==
          (!kept ? CALUGNID_BAD_BODY : plain ? CALUGNID_ACCEPTED : CALUGNID_NEEDS_EDITION_2));
}

/* Every value of byte 60 with every value of another of the four, the rest as in
 * edition 1. */
static void try_added_rules(void)
{
    uint8_t state[STATE];
    struct image image;

    calugnid_start(state, CALUGNID_ORDINARY, 0);
    make_image(&image, state, 2);
    for (unsigned i = 0; i < 3 * 256 * 256; i++) {
        uint8_t four[sizeof added];

        memcpy(four, added, sizeof added);
        four[0] = (uint8_t)(i >> 8);
        four[1 + (i >> 16)] = (uint8_t)i;
        try_four(&image, four);
    }
}

/* An overlay's nibble may be any with the first set. With the second, where bit 4
 * of the status is not covered, bit 0 of it is 0. */
static void try_nibbles(void)
{
    uint8_t state[STATE], other[STATE];
    struct image image;

    for (unsigned i = 0; i < OPTION_CHOICES * 16; i++) {
        bool odd = i & 1, second = i / 16 & CALUGNID_SECOND_SET;

        calugnid_start(state, (uint8_t)(i / 16), 0);
        state[6] = 1;
        state[7] = i % 16;
        make_image(&image, state, 2);
        CHECK(calugnid_load(other, 0, image.bytes, image.length) ==
              (odd && second ? CALUGNID_BAD_BODY : CALUGNID_ACCEPTED));
    }
}

/* The rules of edition 1 hold in each edition, whatever the options are. */
static void try_old_rules(void)
{
    static const uint8_t broken[][2] = {{1, 0x80}, {1, 0x02}, {3, 0x04}, {4, 8},    {4, 2},
                                        {5, 1},    {6, 2},    {7, 2},    {8, 3},    {9, 1},
                                        {10, 17},  {10, 1},   {11, 1},   {12, 1},   {27, 1},
                                        {28, 0x80}, {1, 0x40}};
    uint8_t state[STATE];
    struct image image;

    for (unsigned i = 0; i < OPTION_CHOICES * sizeof broken / sizeof broken[0]; i++) {
        const uint8_t *rule = broken[i / OPTION_CHOICES];

        for (int edition = 1; edition <= 2; edition++) {
            calugnid_start(state, i % OPTION_CHOICES, 0);
            make_image(&image, state, edition);
            image.bytes[rule[0]] = rule[1];
            put_right(&image);
            CHECK(loads(CALUGNID_BAD_BODY, NULL, 0, NULL, 0, image.bytes, image.length));
            CHECK(calugnid_edition(image.bytes, image.length) == edition);
        }
    }
}

/* A body locked with the code 1Eh 30h, of which the first is typed, under any
 * options: no list makes it in AT mode or with the second set, but it breaks no
 * rule. It loads, is saved again, refuses writes and opens. */
static void try_made_lock(uint8_t options)
{
    uint8_t state[STATE], saved[NEW_IMAGE];
    struct image image;

    calugnid_start(state, options, VERSION);
    state[1] = 0x40; /* locked */
    state[10] = 2;
    state[11] = 1;
    state[12] = 0x1E;
    state[13] = 0x30;
    state[28] = 0x40; /* both devices on, translated */
    make_image(&image, state, 2);
    CHECK(loads(0, state, VERSION, NULL, 0, image.bytes, image.length));
    CHECK(calugnid_load(state, VERSION, image.bytes, image.length) == 0);
    CHECK(calugnid_save(state, saved, sizeof saved) == 0);
    CHECK(memcmp(saved, image.bytes, sizeof saved) == 0);
    CHECK(calugnid_locked(state));
    CHECK(calugnid_refusal(state, CALUGNID_WRITE_COMMAND, 0xAA) == CALUGNID_LOCKED);
    event(state, CALUGNID_KEYBOARD_FRAME, calugnid_frame(0x32));
    CHECK(!calugnid_locked(state));
    CHECK(calugnid_refusal(state, CALUGNID_WRITE_COMMAND, 0xAA) == CALUGNID_ACCEPTED);
}

/* A body with this pending code, a mouse byte and an overlay under any options:
 * the data byte does what the code says. Returns the state after it. */
static void after_made_code(uint8_t *state, uint8_t options, uint8_t code, uint8_t byte)
{
    struct image image;

    calugnid_start(state, options, VERSION);
    state[0] = 0x77;
    state[1] = 0x03; /* OBF, mouse source */
    state[4] = code;
    state[6] = 1;
    state[7] = 0x0A;
    make_image(&image, state, 2);
    CHECK(loads(0, state, VERSION, NULL, 0, image.bytes, image.length));
    CHECK(calugnid_load(state, VERSION, image.bytes, image.length) == 0);
    event(state, CALUGNID_WRITE_DATA, byte);
}

static void try_made_codes(uint8_t options)
{
    uint8_t state[STATE];

    after_made_code(state, options, 3, 0x1E); /* a lock code being loaded */
    CHECK(state[4] == 3 && state[10] == 1 && state[12] == 0x1E);
    after_made_code(state, options, 5, 0x41); /* put */
    CHECK(state[0] == 0x41 && state[1] == 0x01 && state[4] == 0);
    after_made_code(state, options, 6, 0x42); /* put, mouse source */
    CHECK(state[0] == 0x42 && state[1] == 0x03 && state[4] == 0);
    after_made_code(state, options, 7, 0xF4); /* sent to the mouse */
    CHECK(state[0] == 0x77 && state[8] == CALUGNID_TO_MOUSE && state[9] == 0xF4);
    CHECK(state[6] == 1 && state[7] == 0x0A);
}

int main(void)
{
    try_sizes();
    try_fresh_images();
    try_save_of_anything();
    for (uint8_t options = 0; options < OPTION_CHOICES; options++) {
        try_saves(options);
        try_loads(options);
        try_lengths(options);
        try_damages(options);
        try_made_lock(options);
        try_made_codes(options);
    }
    try_restoring_all();
    try_mixed_trailers();
    try_added_rules();
    try_nibbles();
    try_old_rules();
    return failures != 0;
}
