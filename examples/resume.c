/* A controller saved in the middle of work, and a new one that goes on from the
 * image: in AT mode, with the second command set, with latches written and with
 * the key table of a keypad that has 1 2 3 in its upper row. Then an image of
 * edition 1, moved to edition 2 and loaded, and what becomes of both on the way
 * back. Prints for an event the number of the check that refuses it (00 for
 * none), the status and P2 after it, and the byte that the host then reads, where
 * there is one. */
#include <stdio.h>
#include <stdlib.h>
#include <string.h>

#include "calugnid.h"

/* What the panel's firmware is to be told, and another. */
enum { VERSION = 0x46, OTHER_VERSION = 0x50 };

/* As version 2 of the library saved it: the keyboard on, locked with the code
 * 1Eh 30h, of which the first key was typed. */
static const uint8_t EDITION_1[CALUGNID_EDITION_1_BYTES] = {
    0x00, 0x44, 0xFF, 0x03, 0x00, 0x00, 0x00, 0x00, 0x00, 0x00, 0x02, 0x01,
    0x1E, 0x30, 0x00, 0x00, 0x00, 0x00, 0x00, 0x00, 0x00, 0x00, 0x00, 0x00,
    0x00, 0x00, 0x00, 0x00, 0x60, 0x00, 0x00, 0x00, 0x00, 0x00, 0x00, 0x00,
    0x00, 0x00, 0x00, 0x00, 0x00, 0x00, 0x00, 0x00, 0x00, 0x00, 0x00, 0x00,
    0x00, 0x00, 0x00, 0x00, 0x00, 0x00, 0x00, 0x00, 0x00, 0x00, 0x00, 0x00,
    0x3C, 0x00, 0x7F, 0x79, 0x01, 0x4B, 0x42, 0x43,
};

/* ---- What is printed. */

static void say(const char *what, uint8_t check)
{
    printf("%-34s   %2d, %s\n", what, check, calugnid_refusal_name(check));
}

static void say_same(const char *what, const uint8_t *one, const uint8_t *other, size_t length)
{
    printf("%-34s   %s\n", what, memcmp(one, other, length) == 0 ? "equal" : "different");
}

static void say_edition(const char *what, const uint8_t *image, size_t length)
{
    printf("%-34s   edition %d, %d bytes\n", what, calugnid_edition(image, length), (int)length);
}

static void show(uint8_t *state, uint8_t kind, uint16_t value)
{
    struct calugnid_answer answer;

    calugnid_event(state, kind, value, calugnid_bytes(&answer));
    printf("   %02X %02X %02X", answer.refusal, answer.status, answer.p2);
    if (!(answer.status & CALUGNID_STATUS_OBF)) {
        printf(" --");
        return;
    }
    calugnid_event(state, CALUGNID_READ_DATA, 0, calugnid_bytes(&answer));
    printf(" %02X", answer.read);
}

/* An event on one controller, or on two that should do the same. */
static void try_event(const char *what, uint8_t *one, uint8_t *other, uint8_t kind, uint16_t value)
{
    printf("%-34s", what);
    show(one, kind, value);
    if (other)
        show(other, kind, value);
    printf("\n");
}

static void try_command(const char *what, uint8_t *one, uint8_t *other, uint8_t byte)
{
    try_event(what, one, other, CALUGNID_WRITE_COMMAND, byte);
}

static void try_key(const char *what, uint8_t *one, uint8_t *other, uint8_t byte)
{
    try_event(what, one, other, CALUGNID_KEYBOARD_FRAME, calugnid_frame(byte));
}

/* ---- What is done. */

/* A call that this program cannot do without. */
static void need(uint8_t check)
{
    if (check == CALUGNID_ACCEPTED)
        return;
    printf("failed: %s\n", calugnid_refusal_name(check));
    exit(1);
}

/* The built-in table, which stands in a fresh state, with the upper and the lower
 * row of the keypad exchanged. */
static void make_table(uint8_t *table)
{
    static const uint8_t UPPER[] = {0x6C, 0x75, 0x7D}, LOWER[] = {0x69, 0x72, 0x7A};
    uint8_t state[CALUGNID_STATE_BYTES];

    calugnid_start(state, CALUGNID_ORDINARY, 0);
    memcpy(table, state + CALUGNID_STATE_TABLE, CALUGNID_TABLE_BYTES);
    for (size_t i = 0; i < sizeof UPPER; i++) {
        uint8_t code = table[UPPER[i]];

        table[UPPER[i]] = table[LOWER[i]];
        table[LOWER[i]] = code;
    }
}

/* Latches of P1 and P2 are written, a byte to the keyboard times out, and D1h
 * still waits for its data byte. */
static void work(uint8_t *state, const uint8_t *table)
{
    static const uint8_t LIST[] = {
        CALUGNID_WRITE_COMMAND, CALUGNID_CMD_KEYBOARD_ON, 0,
        CALUGNID_WRITE_COMMAND, CALUGNID_CMD_WRITE_P1_LOW + 0x0A, 0,
        CALUGNID_WRITE_COMMAND, CALUGNID_CMD_ALLOW_P22_P23, 0,
        CALUGNID_WRITE_COMMAND, CALUGNID_CMD_WRITE_P2, 0,
        CALUGNID_WRITE_DATA, 0x27, 0,
        CALUGNID_WRITE_DATA, 0xED, 0,
        CALUGNID_BYTE_TIMED_OUT, 0, 0,
        CALUGNID_READ_DATA, 0, 0,
        CALUGNID_WRITE_COMMAND, CALUGNID_CMD_WRITE_P2, 0,
    };
    struct calugnid_answer answers[sizeof LIST / CALUGNID_EVENT_BYTES];

    need(calugnid_start_with_table(state, CALUGNID_PC_AT | CALUGNID_SECOND_SET, VERSION, table,
                                   CALUGNID_TABLE_BYTES));
    need(calugnid_run_state(state, LIST, sizeof LIST, calugnid_bytes(answers), sizeof answers));
}

/* The version byte and the table are not in the image: the panel keeps them. */
static void resume(uint8_t *saved, const uint8_t *table, const uint8_t *image)
{
    uint8_t loaded[CALUGNID_STATE_BYTES];

    printf("-- loaded with the same version byte and table\n");
    say("loaded", calugnid_load_with_table(loaded, VERSION, table, CALUGNID_TABLE_BYTES, image,
                                           CALUGNID_IMAGE_BYTES));
    say_same("the two states", saved, loaded, sizeof loaded);
    printf("%-34s   saved         loaded\n", "");
    printf("%-34s   rf st p2 rd   rf st p2 rd\n", "");
    try_event("03, for which D1 waits", saved, loaded, CALUGNID_WRITE_DATA, 0x03);
    try_command("A1, the version byte", saved, loaded, CALUGNID_CMD_READ_VERSION);
    try_command("CA, the mode", saved, loaded, CALUGNID_CMD_WHICH_MODE);
    try_command("C0, the input port", saved, loaded, CALUGNID_CMD_READ_P1);
    try_key("the key 6C", saved, loaded, 0x6C);
    try_event("the mouse sends 08", saved, loaded, CALUGNID_MOUSE_FRAME, calugnid_frame(0x08));
}

/* Mode, command set and latches are the image's even so. */
static void resume_with_others(const uint8_t *image)
{
    uint8_t loaded[CALUGNID_STATE_BYTES];

    printf("-- loaded with another version byte and the built-in table\n");
    say("loaded", calugnid_load(loaded, OTHER_VERSION, image, CALUGNID_IMAGE_BYTES));
    try_command("A1", loaded, NULL, CALUGNID_CMD_READ_VERSION);
    try_command("CA", loaded, NULL, CALUGNID_CMD_WHICH_MODE);
    try_key("the key 6C", loaded, NULL, 0x6C);
}

/* An old image may be loaded as it is, or moved first. */
static void move_old(uint8_t *moved)
{
    uint8_t as_it_is[CALUGNID_STATE_BYTES], state[CALUGNID_STATE_BYTES];
    uint8_t again[CALUGNID_IMAGE_BYTES];

    printf("-- an image of edition 1\n");
    say_edition("as it was kept", EDITION_1, sizeof EDITION_1);
    say("moved to edition 2", calugnid_move_to_edition_2(EDITION_1, sizeof EDITION_1, moved,
                                                         CALUGNID_IMAGE_BYTES));
    say_edition("as it is now", moved, CALUGNID_IMAGE_BYTES);
    say("moved once more", calugnid_move_to_edition_2(moved, CALUGNID_IMAGE_BYTES, again,
                                                      sizeof again));
    need(calugnid_load(as_it_is, 0, EDITION_1, sizeof EDITION_1));
    need(calugnid_load(state, 0, moved, CALUGNID_IMAGE_BYTES));
    say_same("the states of both", as_it_is, state, sizeof state);
    try_command("20, the command byte", state, NULL, CALUGNID_CMD_READ_MODE);
    try_key("the key 32, the last of the code", state, NULL, 0x32);
    try_command("20", state, NULL, CALUGNID_CMD_READ_MODE);
}

/* Edition 1 has room for a controller without options alone. */
static void move_back(const uint8_t *moved, const uint8_t *image)
{
    uint8_t back[CALUGNID_EDITION_1_BYTES];

    printf("-- the way back\n");
    say("the old image", calugnid_move_to_edition_1(moved, CALUGNID_IMAGE_BYTES, back, sizeof back));
    say_same("there and back", back, EDITION_1, sizeof back);
    say("the image in AT mode", calugnid_move_to_edition_1(image, CALUGNID_IMAGE_BYTES, back,
                                                           sizeof back));
    say_same("the space", back, EDITION_1, sizeof back);
}

int main(void)
{
    uint8_t state[CALUGNID_STATE_BYTES], table[CALUGNID_TABLE_BYTES];
    uint8_t image[CALUGNID_IMAGE_BYTES], moved[CALUGNID_IMAGE_BYTES];

    make_table(table);
    work(state, table);
    say("saved", calugnid_save(state, image, sizeof image));
    say_edition("the image", image, sizeof image);
    resume(state, table, image);
    resume_with_others(image);
    move_old(moved);
    move_back(moved, image);
    return 0;
}
