/* Saved images given to loads, to moves between the editions and to runs: the
 * order of their checks, moves there and back, and runs from an image. */
#include "images.h"

/* ---- The order of the checks. A set of faults is given at once, a bit for each
 * check, and the first check in the order of the call has to refuse. */

#define FAULT(check) (1u << (check))

static uint8_t first_fault(const uint8_t *order, size_t count, unsigned faults)
{
    for (size_t i = 0; i < count; i++)
        if (faults & FAULT(order[i]))
            return order[i];
    return CALUGNID_ACCEPTED;
}

static unsigned all_faults(const uint8_t *order, size_t count)
{
    unsigned faults = 0;

    for (size_t i = 0; i < count; i++)
        faults |= FAULT(order[i]);
    return faults;
}

/* What check 10 sees: ways to damage a trailer, a front byte that is missing, and
 * for a move an image of the other edition. */
enum { MARK, SUM, DISTANCE, EDITION_3, EDITION_CHANGED, CUT_SHORT, DAMAGES, OTHER = DAMAGES, WAYS };

static void damage(struct image *image, int way)
{
    uint8_t *trailer = image->bytes + image->length - TRAILER_BYTES;

    switch (way) {
    case MARK: trailer[7] ^= 0x20; break;
    case SUM: trailer[2] ^= 0x01; break;
    case DISTANCE: trailer[0] ^= BODY_BYTES ^ EDITION_1_BODY_BYTES; break;
    case EDITION_3: trailer[4] = 3; break;
    case EDITION_CHANGED: trailer[4] ^= 3; break;
    case CUT_SHORT:
        image->length--;
        memmove(image->bytes, image->bytes + 1, image->length);
        break;
    default: break;
    }
}

/* An image of a fresh controller with those of the faults 16, 11 and 10 that are
 * in the set. It is of the other edition where that is the way of 10. */
static void make_faulty_image(struct image *image, int edition, unsigned faults, int way)
{
    uint8_t state[STATE];
    bool other = way == OTHER && faults & FAULT(CALUGNID_BAD_IMAGE);

    calugnid_start(state, CALUGNID_ORDINARY, VERSION);
    if (faults & FAULT(CALUGNID_NEEDS_EDITION_2))
        state[OPTIONS_BYTE] = CALUGNID_MOUSE_LOCK;
    if (faults & FAULT(CALUGNID_BAD_BODY))
        state[3] |= 4; /* a third latch */
    make_image(image, state, other ? 3 - edition : edition);
    if (faults & FAULT(CALUGNID_BAD_IMAGE))
        damage(image, way);
}

/* A table with those of the faults 13, 14 and 15. Returns its length. */
static size_t make_faulty_table(uint8_t *table, unsigned faults, size_t wrong_length)
{
    changed_about(table);
    if (faults & FAULT(CALUGNID_BAD_KEYS))
        table[0x7F] = table[0x01];
    if (faults & FAULT(CALUGNID_BAD_FIXED))
        table[0xFE] = 0;
    if (faults & FAULT(CALUGNID_BAD_TABLE))
        return wrong_length;
    return TABLE;
}

/* 10, 11, 13, 14, 15; without a table 10, 11. */
static void try_load_order(int edition, int way)
{
    static const uint8_t order[] = {10, 11, 13, 14, 15};
    uint8_t table[TABLE + 1] = {0}, right[STATE];
    struct image image;
    unsigned all = all_faults(order, sizeof order);

    for (unsigned faults = 0; faults <= all; faults++) {
        size_t length;

        if (faults & ~all)
            continue;
        length = make_faulty_table(table, faults, draw(2) ? TABLE + 1 : draw(TABLE));
        make_faulty_image(&image, edition, faults, way);
        loaded_state(right, &image, VERSION, table);
        CHECK(loads(first_fault(order, sizeof order, faults), right, VERSION, table, length,
                    image.bytes, image.length));
        loaded_state(right, &image, VERSION, NULL);
        CHECK(loads(first_fault(order, 2, faults), right, VERSION, NULL, 0, image.bytes,
                    image.length));
    }
}

/* The move to this edition. */
static uint8_t move_to(int edition, const struct image *image, uint8_t *moved, size_t length)
{
    return edition == 2 ? calugnid_move_to_edition_2(image->bytes, image->length, moved, length)
                        : calugnid_move_to_edition_1(image->bytes, image->length, moved, length);
}

/* 10, 11, 16 where it goes back, 9. */
static void try_move_order(int edition, int way)
{
    static const uint8_t forth[] = {10, 11, 9}, back[] = {10, 11, 16, 9};
    const uint8_t *order = edition == 2 ? forth : back;
    size_t count = edition == 2 ? sizeof forth : sizeof back;
    size_t needed = body_bytes(edition) + TRAILER_BYTES;
    unsigned all = all_faults(order, count);
    struct image image, right;
    struct room room;

    for (unsigned faults = 0; faults <= all; faults++) {
        if (faults & ~all)
            continue;
        make_faulty_image(&image, 3 - edition, faults, way);
        make_faulty_image(&right, edition, 0, 0);
        for (size_t length = 0; length <= ROOM_MOST; length++) {
            if ((length < needed) != ((faults & FAULT(CALUGNID_NO_SAVE_ROOM)) != 0))
                continue;
            clear(&room);
            CHECK(move_to(edition, &image, room.bytes + FENCE, length) ==
                  first_fault(order, count, faults));
            CHECK(wrote(&room, right.bytes, faults ? 0 : needed));
        }
    }
}

/* What a run from an image is given, and what it may write. */
struct run {
    struct image image;
    uint8_t table[TABLE + 1];
    size_t table_length, list_length, answers_length, saved_length;
    struct room answers, saved;
};

/* Three events and two bytes that are no event: mouse on, read, pins. */
static const uint8_t list[] = {3, 0xA8, 0, 0, 0, 0, 8, 0x7F, 0, 1, 1};
enum { EVENTS = 3, LIST = 3 * EVENTS, ANSWERS = 9 * EVENTS };

static void make_run(struct run *run, int edition, unsigned faults, int way)
{
    make_faulty_image(&run->image, edition, faults, way);
    run->table_length = make_faulty_table(run->table, faults, TABLE - 1);
    run->list_length = LIST + (faults & FAULT(CALUGNID_BAD_LIST) ? 1 + draw(2) : 0);
    run->answers_length = faults & FAULT(CALUGNID_NO_ROOM) ? draw(ANSWERS) : ANSWERS + draw(3);
    run->saved_length = faults & FAULT(CALUGNID_NO_SAVE_ROOM) ? NEW_IMAGE - 1 - draw(4)
                                                              : NEW_IMAGE + draw(4);
    clear(&run->answers);
    clear(&run->saved);
}

static uint8_t run_image(struct run *run, bool with_table)
{
    uint8_t *answers = run->answers.bytes + FENCE, *saved = run->saved.bytes + FENCE;

    return with_table
               ? calugnid_run_image_with_table(VERSION, run->table, run->table_length,
                                               run->image.bytes, run->image.length, list,
                                               run->list_length, answers, run->answers_length,
                                               saved, run->saved_length)
               : calugnid_run_image(VERSION, run->image.bytes, run->image.length, list,
                                    run->list_length, answers, run->answers_length, saved,
                                    run->saved_length);
}

/* 7, 8, 9, 10, 11, 13, 14, 15; without a table 7 to 11. Refused, neither space
 * is written. */
static void try_run_order(int edition, int way)
{
    static const uint8_t order[] = {7, 8, 9, 10, 11, 13, 14, 15};
    unsigned all = all_faults(order, sizeof order);
    struct run run;

    for (unsigned faults = 0; faults <= all; faults++) {
        if (faults & ~all)
            continue;
        for (int with_table = 0; with_table < 2; with_table++) {
            uint8_t first = first_fault(order, with_table ? sizeof order : 5, faults);

            make_run(&run, edition, faults, way);
            CHECK(run_image(&run, with_table) == first);
            CHECK(wrote(&run.answers, NULL, 0) == (first != 0));
            CHECK(wrote(&run.saved, NULL, 0) == (first != 0));
        }
    }
}

static void try_orders(void)
{
    for (int edition = 1; edition <= 2; edition++) {
        for (int way = 0; way < DAMAGES; way++) {
            try_load_order(edition, way);
            try_run_order(edition, way);
        }
        for (int way = 0; way < WAYS; way++)
            try_move_order(edition, way);
    }
}

/* ---- Moves and runs that are accepted. */

/* Whether a move gives just this image, which stands at the end of the bytes. */
static bool moves(int edition, const struct image *image, const struct image *right)
{
    uint8_t bytes[3 + NEW_IMAGE];
    struct room room;

    memset(bytes, 0x4B, sizeof bytes);
    memcpy(bytes + 3, image->bytes, image->length);
    clear(&room);
    if ((edition == 2 ? calugnid_move_to_edition_2 : calugnid_move_to_edition_1)(
            bytes, 3 + image->length, room.bytes + FENCE, ROOM_MOST) != CALUGNID_ACCEPTED)
        return false;
    return wrote(&room, right->bytes, right->length) &&
           memcmp(bytes + 3, image->bytes, image->length) == 0;
}

/* A controller without options in both editions: each moves to the other, so
 * there and back gives the same bytes, and both load to one state. */
static void try_moves(void)
{
    uint8_t state[STATE], table[TABLE];
    struct image old, now;

    changed_about(table);
    for (int i = 0; i < 500; i++) {
        work(state, CALUGNID_ORDINARY, table, (int)draw(100));
        make_image(&old, state, 1);
        make_image(&now, state, 2);
        CHECK(moves(2, &old, &now));
        CHECK(moves(1, &now, &old));
        CHECK(loads(0, state, VERSION, table, TABLE, old.bytes, old.length));
        CHECK(loads(0, state, VERSION, table, TABLE, now.bytes, now.length));
    }
}

/* Whether load, run and save in one call do what three calls do. */
static bool runs(const struct image *image, uint8_t *state, const uint8_t *table)
{
    uint8_t answers[ANSWERS], saved[NEW_IMAGE];
    struct run run;

    make_run(&run, 2, 0, 0);
    run.image = *image;
    if (table)
        memcpy(run.table, table, TABLE);
    if (run_image(&run, table != NULL) != CALUGNID_ACCEPTED)
        return false;
    return load(state, VERSION, table, TABLE, image->bytes, image->length) == 0 &&
           calugnid_run_state(state, list, LIST, answers, sizeof answers) == 0 &&
           calugnid_save(state, saved, sizeof saved) == 0 &&
           wrote(&run.answers, answers, sizeof answers) && wrote(&run.saved, saved, sizeof saved);
}

/* From images of either edition in the middle of work; what is saved is always
 * of edition 2. */
static void try_runs(uint8_t options)
{
    uint8_t state[STATE], table[TABLE];
    struct image image;

    changed_about(table);
    for (int i = 0; i < 100; i++) {
        int edition = options == CALUGNID_ORDINARY ? 1 + i % 2 : 2;

        work(state, options, i & 2 ? table : NULL, (int)draw(100));
        make_image(&image, state, edition);
        CHECK(runs(&image, state, i & 2 ? table : NULL));
    }
}

/* A run whose events go by the table and the version byte: key 1Ch, A1h. */
static void try_given_again(void)
{
    static const uint8_t asks[] = {3, 0xAE, 0, 4, 0x38, 0x04, 0, 0, 0, 3, 0xA1, 0, 0, 0, 0};
    uint8_t state[STATE], image[NEW_IMAGE], saved[NEW_IMAGE], table[TABLE];
    struct calugnid_answer answers[5];

    changed_about(table);
    calugnid_start(state, CALUGNID_SECOND_SET, 0x11);
    CHECK(calugnid_save(state, image, sizeof image) == 0);
    CHECK(calugnid_run_image(0x22, image, sizeof image, asks, sizeof asks,
                             calugnid_bytes(answers), sizeof answers, saved, sizeof saved) == 0);
    CHECK(answers[2].read == 0x1E && answers[4].read == 0x22);
    CHECK(calugnid_run_image_with_table(0x33, table, TABLE, image, sizeof image, asks, sizeof asks,
                                        calugnid_bytes(answers), sizeof answers, saved,
                                        sizeof saved) == 0);
    CHECK(answers[2].read == 0x30 && answers[4].read == 0x33);
    CHECK(calugnid_load_with_table(state, 0x44, table, TABLE, image, sizeof image) == 0);
    CHECK(calugnid_version_byte(state) == 0x44 && calugnid_options(state) == CALUGNID_SECOND_SET);
}

int main(void)
{
    try_orders();
    try_moves();
    for (uint8_t options = 0; options < OPTION_CHOICES; options++)
        try_runs(options);
    try_given_again();
    return failures != 0;
}
