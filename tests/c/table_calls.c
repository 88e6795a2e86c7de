/* Key tables of the caller's: each refusal and their order, what a refused call
 * leaves, and what goes by a table once it is loaded. */
#include "checks.h"

enum { VERSION = 0x5A };

/* The length of a table, and of two. */
enum { TABLE = CALUGNID_TABLE_BYTES, TWO_TABLES = 2 * TABLE };

/* Bytes that a table has to give themselves. */
static const uint8_t fixed[] = {0xE0, 0xE1, 0xEE, 0xF0, 0xFA, 0xFE};

/* Whether a run is refused by the number and leaves the answers. The list may be
 * bad and the room too small. */
static bool run_refused(uint8_t number, const uint8_t *table, size_t length,
                        size_t list_length, size_t room)
{
    static const uint8_t list[] = {3, 0xAE, 0, 2, 0, 0, 0};
    uint8_t answers[2 * CALUGNID_ANSWER_BYTES], before[sizeof answers];

    memset(answers, 0xA5, sizeof answers);
    memcpy(before, answers, sizeof before);
    return calugnid_run_with_table(CALUGNID_ORDINARY, VERSION, table, length, list, list_length,
                                   answers, room) == number &&
           memcmp(answers, before, sizeof before) == 0;
}

/* Whether a start is refused by the number and leaves the state. */
static bool start_refused(uint8_t number, const uint8_t *table, size_t length, uint8_t *state)
{
    uint8_t before[CALUGNID_STATE_BYTES];

    memcpy(before, state, sizeof before);
    return calugnid_start_with_table(state, CALUGNID_PC_AT, VERSION, table, length) == number &&
           memcmp(state, before, sizeof before) == 0;
}

/* Whether each call refuses the table by the number. A state of no controller is
 * left, and one with a table of its own. */
static bool refused(uint8_t number, const uint8_t *table, size_t length)
{
    uint8_t own[TABLE], blank[CALUGNID_STATE_BYTES], state[CALUGNID_STATE_BYTES];

    changed_about(own);
    memset(blank, 0xA5, sizeof blank);
    return calugnid_table_refusal(table, length) == number &&
           start_refused(number, table, length, blank) &&
           calugnid_start_with_table(state, CALUGNID_MOUSE_LOCK, 1, own, TABLE) == 0 &&
           start_refused(number, table, length, state) &&
           run_refused(number, table, length, 6, 18) &&
           run_refused(number, table, length, 7, 18) &&
           run_refused(number, table, length, 6, 17) &&
           run_refused(number, table, length, 7, 0);
}

/* Any length but 256, with a sound table in front or only zeros. */
static void try_lengths(void)
{
    uint8_t bytes[TWO_TABLES], zeros[TWO_TABLES] = {0};

    changed_about(bytes);
    changed_about(bytes + TABLE);
    for (size_t length = 0; length <= TWO_TABLES; length++) {
        if (length == TABLE)
            continue;
        CHECK(refused(CALUGNID_BAD_TABLE, bytes, length));
        CHECK(refused(CALUGNID_BAD_TABLE, zeros, length));
    }
    CHECK(calugnid_table_refusal(bytes, TABLE) == CALUGNID_ACCEPTED);
}

/* Each key with the code of another, and with codes that no key may have. */
static void try_bad_keys(void)
{
    uint8_t table[TABLE];

    for (unsigned key = 0x01; key <= 0x7F; key++) {
        static const uint8_t codes[] = {0x00, 0x80, 0xFF};
        unsigned other = key == 0x7F ? 0x01 : key + 1;

        for (size_t i = 0; i < sizeof codes; i++) {
            changed_about(table);
            table[key] = codes[i];
            CHECK(refused(CALUGNID_BAD_KEYS, table, TABLE));
        }
        changed_about(table);
        table[key] = table[other];
        CHECK(refused(CALUGNID_BAD_KEYS, table, TABLE));
    }
}

/* Each fixed entry with every other value. */
static void try_bad_fixed(void)
{
    uint8_t table[TABLE];

    changed_about(table);
    for (unsigned code = 0; code < 0xFF; code++) {
        table[0x00] = (uint8_t)code;
        CHECK(refused(CALUGNID_BAD_FIXED, table, TABLE));
    }
    table[0x00] = 0xFF;
    for (size_t i = 0; i < sizeof fixed; i++) {
        for (unsigned step = 1; step < 256; step++) {
            table[fixed[i]] = (uint8_t)(fixed[i] + step);
            CHECK(refused(CALUGNID_BAD_FIXED, table, TABLE));
        }
        table[fixed[i]] = fixed[i];
    }
    CHECK(calugnid_table_refusal(table, TABLE) == CALUGNID_ACCEPTED);
}

/* 13, then 14, then 15, then 7, then 8. */
static void try_order(void)
{
    uint8_t table[TABLE];

    changed_about(table);
    table[0x7F] = table[0x01];
    table[0xFE] = 0;
    CHECK(refused(CALUGNID_BAD_TABLE, table, TABLE - 1));
    CHECK(refused(CALUGNID_BAD_KEYS, table, TABLE));
    changed_about(table);
    table[0xFE] = 0;
    CHECK(refused(CALUGNID_BAD_FIXED, table, TABLE));
    table[0xFE] = 0xFE;
    CHECK(run_refused(CALUGNID_BAD_LIST, table, TABLE, 7, 0));
    CHECK(run_refused(CALUGNID_NO_ROOM, table, TABLE, 6, 17));
}

/* The table stands in the state, the rest is that of a start without one, and
 * the caller's bytes are only read. */
static void try_starts(void)
{
    uint8_t table[TABLE], kept[TABLE];
    uint8_t state[CALUGNID_STATE_BYTES], plain[CALUGNID_STATE_BYTES];

    for (unsigned options = 0; options < OPTION_CHOICES; options++) {
        changed_about(table);
        memcpy(kept, table, sizeof kept);
        memset(state, 0xA5, sizeof state);
        CHECK(calugnid_start_with_table(state, (uint8_t)options, VERSION, table, TABLE) == 0);
        CHECK(memcmp(table, kept, sizeof kept) == 0);
        calugnid_start(plain, (uint8_t)options, VERSION);
        CHECK(memcmp(state, plain, CALUGNID_STATE_TABLE) == 0);
        CHECK(memcmp(state + CALUGNID_STATE_TABLE, kept, sizeof kept) == 0);
        built_in_table(table);
        CHECK(calugnid_start_with_table(state, (uint8_t)options, VERSION, table, TABLE) == 0);
        CHECK(memcmp(state, plain, sizeof plain) == 0);
    }
    CHECK(CALUGNID_STATE_TABLE + CALUGNID_TABLE_BYTES == CALUGNID_STATE_BYTES);
}

/* Whether the host reads this code for a byte of the keyboard. */
static bool gives(uint8_t *state, uint8_t byte, uint8_t code)
{
    uint8_t answer[CALUGNID_ANSWER_BYTES];

    calugnid_event(state, CALUGNID_KEYBOARD_FRAME, calugnid_frame(byte), answer);
    return answer[CALUGNID_ANSWER_REFUSAL] == 0 && reads(state, code, false);
}

/* A controller with the table and the keyboard on. */
static void start_changed_about(uint8_t *state)
{
    uint8_t table[TABLE];

    changed_about(table);
    CHECK(calugnid_start_with_table(state, CALUGNID_ORDINARY, VERSION, table, TABLE) == 0);
    CHECK(leaves(state, CALUGNID_WRITE_COMMAND, 0xAE, 0x18, 0x0B));
}

/* F0h is the prefix of a break code, and a byte that gives F0h is not. */
static void try_reads(void)
{
    uint8_t state[CALUGNID_STATE_BYTES];

    start_changed_about(state);
    CHECK(gives(state, 0x1C, 0x30) && gives(state, 0x32, 0x1E) && gives(state, 0x14, 0x1D));
    CHECK(leaves(state, CALUGNID_KEYBOARD_FRAME, calugnid_frame(0xF0), 0x18, 0x0B));
    CHECK(gives(state, 0x1C, 0xB0));
    CHECK(gives(state, 0x91, 0xF0) && gives(state, 0x1C, 0x30));
    CHECK(gives(state, 0x90, 0x1E) && gives(state, 0x00, 0xFF));
    CHECK(calugnid_translate(0x1C, false) == (CALUGNID_YIELDS | 0x1E));
}

/* Code 1Eh 30h: the keys that give it by this table open, those of the built-in
 * one do not. */
static void try_lock(void)
{
    static const uint8_t typed[3][2] = {{0x32, 0x1C}, {0x90, 0x1C}, {0x1C, 0x32}};
    static const uint8_t load[][2] = {{3, 0xA5}, {1, 0x1E}, {1, 0x30}, {1, 0x00}, {3, 0xA6}};

    for (size_t i = 0; i < 3; i++) {
        uint8_t state[CALUGNID_STATE_BYTES], answer[CALUGNID_ANSWER_BYTES];

        start_changed_about(state);
        for (size_t j = 0; j < sizeof load / sizeof load[0]; j++)
            calugnid_event(state, load[j][0], load[j][1], answer);
        CHECK(calugnid_refusal(state, CALUGNID_WRITE_DATA, 0) == CALUGNID_LOCKED);
        for (size_t j = 0; j < 2; j++)
            calugnid_event(state, CALUGNID_KEYBOARD_FRAME, calugnid_frame(typed[i][j]), answer);
        CHECK(calugnid_refusal(state, CALUGNID_WRITE_DATA, 0) ==
              (i < 2 ? CALUGNID_ACCEPTED : CALUGNID_LOCKED));
    }
}

/* A list from fresh: the keyboard on, the key 1Ch, a read. */
static void try_runs(void)
{
    static const uint8_t list[] = {3, 0xAE, 0, 4, 0x38, 0x04, 0, 0, 0};
    uint8_t table[TABLE], answers[3 * CALUGNID_ANSWER_BYTES + 1], other[sizeof answers];

    memset(answers, 0xA5, sizeof answers);
    memcpy(other, answers, sizeof other);
    changed_about(table);
    CHECK(calugnid_run_with_table(CALUGNID_ORDINARY, VERSION, table, TABLE, list, sizeof list,
                                  answers, sizeof answers) == CALUGNID_ACCEPTED);
    CHECK(calugnid_run(CALUGNID_ORDINARY, VERSION, list, sizeof list, other, sizeof other) == 0);
    CHECK(answers[18 + CALUGNID_ANSWER_READ] == 0x30 && other[18 + CALUGNID_ANSWER_READ] == 0x1E);
    CHECK(answers[27] == 0xA5);
    built_in_table(table);
    CHECK(calugnid_run_with_table(CALUGNID_ORDINARY, VERSION, table, TABLE, list, sizeof list,
                                  answers, sizeof answers) == CALUGNID_ACCEPTED);
    CHECK(memcmp(answers, other, sizeof other) == 0);
}

/* A save leaves the table out and a refused load keeps it. A load without a table
 * gives the built-in one, a load with a table that table. */
static void try_images(void)
{
    uint8_t state[CALUGNID_STATE_BYTES], table[TABLE], image[CALUGNID_IMAGE_BYTES];

    start_changed_about(state);
    CHECK(calugnid_save(state, image, sizeof image) == CALUGNID_ACCEPTED);
    CHECK(calugnid_load(state, VERSION, image, sizeof image - 1) == CALUGNID_BAD_IMAGE);
    CHECK(gives(state, 0x1C, 0x30));
    CHECK(calugnid_load(state, VERSION, image, sizeof image) == CALUGNID_ACCEPTED);
    built_in_table(table);
    CHECK(memcmp(state + CALUGNID_STATE_TABLE, table, sizeof table) == 0);
    CHECK(gives(state, 0x1C, 0x1E));
    changed_about(table);
    CHECK(calugnid_load_with_table(state, VERSION, table, sizeof table, image, sizeof image) ==
          CALUGNID_ACCEPTED);
    CHECK(memcmp(state + CALUGNID_STATE_TABLE, table, sizeof table) == 0);
    CHECK(gives(state, 0x1C, 0x30));
}

int main(void)
{
    try_lengths();
    try_bad_keys();
    try_bad_fixed();
    try_order();
    try_starts();
    try_reads();
    try_lock();
    try_runs();
    try_images();
    return failures != 0;
}
