/* The second command set: what its commands do in either mode, and that the
 * first set has none of them. */
#include "checks.h"

enum { VERSION = 0x5A };

/* P2 with the keyboard on: in PS/2 mode with the mouse on, in AT mode. */
enum { PS2_PORT = 0x03, PC_AT_PORT = 0x8F };

/* A controller in PS/2 mode with both devices on. */
static void start_ps2(uint8_t *state, uint8_t options)
{
    calugnid_start(state, options, VERSION);
    CHECK(leaves(state, CALUGNID_WRITE_COMMAND, 0xAE, 0x18, 0x0B));
    CHECK(leaves(state, CALUGNID_WRITE_COMMAND, 0xA8, 0x18, PS2_PORT));
}

static void start_pc_at(uint8_t *state, uint8_t options)
{
    calugnid_start(state, options | CALUGNID_PC_AT, VERSION);
    CHECK(leaves(state, CALUGNID_WRITE_COMMAND, 0xAE, 0x18, PC_AT_PORT));
}

/* Whether the command changes nothing that shows but C. */
static bool commands(uint8_t *state, uint8_t command, uint8_t p2)
{
    return leaves(state, CALUGNID_WRITE_COMMAND, command, 0x18, p2);
}

/* C0h reads a line as 1 where its pin and, below P16, its latch are 1. */
static void try_input_port(uint8_t *state, uint8_t p2)
{
    static const uint8_t low[] = {0xB0, 0xB1, 0xB2, 0xB3, 0xB6, 0xB7};

    CHECK(puts_byte(state, 0xC0, 0xFF, p2));
    for (unsigned nibble = 0; nibble < 16; nibble++) {
        CHECK(commands(state, (uint8_t)(0x90 + nibble), p2));
        CHECK(puts_byte(state, 0xC0, (uint8_t)(0xF0 + nibble), p2));
    }
    for (unsigned line = 0; line < 6; line++) {
        CHECK(commands(state, low[line], p2));
        CHECK(puts_byte(state, 0xC0, (uint8_t)(0xFF - (1u << line)), p2));
        CHECK(commands(state, low[line] + 8, p2));
        CHECK(puts_byte(state, 0xC0, 0xFF, p2));
    }
    CHECK(commands(state, 0x95, p2));
    CHECK(commands(state, 0xB7, p2));
    CHECK(leaves(state, CALUGNID_PINS, 0xBC, 0x18, p2));
    CHECK(puts_byte(state, 0xC0, 0x94, p2));
    CHECK(commands(state, 0x9F, p2));
    CHECK(commands(state, 0xBF, p2));
    CHECK(puts_byte(state, 0xC0, 0xBC, p2));
    CHECK(leaves(state, CALUGNID_PINS, 0xFF, 0x18, p2));
}

/* C1h and C2h show three lines each, and the key switch stays in bit 4. */
static void try_overlays(uint8_t *state)
{
    CHECK(commands(state, 0xB2, PS2_PORT));
    CHECK(leaves(state, CALUGNID_WRITE_COMMAND, 0xC1, 0xB8, PS2_PORT));
    CHECK(leaves(state, CALUGNID_PINS, 0x7F, 0xA8, PS2_PORT));
    CHECK(state[6] == 1 && state[7] == 0x0A);
    CHECK(leaves(state, CALUGNID_WRITE_COMMAND, 0xC2, 0x68, PS2_PORT));
    CHECK(leaves(state, CALUGNID_PINS, 0xFF, 0x78, PS2_PORT));
    CHECK(state[6] == 1 && state[7] == 0x06);
    CHECK(commands(state, 0xBA, PS2_PORT));
}

/* D1h and a byte for the output port. */
static bool writes_port(uint8_t *state, uint8_t byte, uint8_t before, uint8_t p2)
{
    return commands(state, 0xD1, before) && leaves(state, CALUGNID_WRITE_DATA, byte, 0x10, p2);
}

/* In PS/2 mode P22 and P23 are kept, as bits 0 and 1 of byte 62, and not shown. */
static void try_ps2_latches(uint8_t *state)
{
    CHECK(writes_port(state, 0xD0, 0x03, 0x00) && state[62] == 3);
    CHECK(commands(state, 0xC8, 0x00) && state[OPTIONS_BYTE] == (CALUGNID_SECOND_SET | 8));
    CHECK(writes_port(state, 0xD3, 0x00, 0x03) && state[62] == 0);
    CHECK(commands(state, 0xC9, 0x03) && state[OPTIONS_BYTE] == CALUGNID_SECOND_SET);
    CHECK(writes_port(state, 0xFF, 0x03, 0x03) && state[62] == 0);
    CHECK(commands(state, 0xBC, 0x03) && state[62] == 1);
    CHECK(commands(state, 0xBD, 0x03) && state[62] == 3);
    CHECK(commands(state, 0xB4, 0x03) && state[62] == 2);
    CHECK(commands(state, 0xB5, 0x03) && state[62] == 0);
    CHECK(commands(state, 0xE8, 0x01) && state[62] == 2);
    CHECK(commands(state, 0xE6, 0x03) && state[62] == 1);
    CHECK(commands(state, 0xEF, 0x03) && state[62] == 3);
}

/* In AT mode they show on P2. P20 and P25 are for D1h alone. */
static void try_pc_at_latches(uint8_t *state)
{
    CHECK(writes_port(state, 0x20, 0x8F, 0xAC));
    CHECK(commands(state, 0xC8, 0xAC));
    CHECK(writes_port(state, 0x01, 0xAC, 0x81));
    CHECK(commands(state, 0xC9, 0x81));
    CHECK(writes_port(state, 0x0D, 0x81, 0x81));
    CHECK(commands(state, 0xBC, 0x85) && commands(state, 0xBD, 0x8D));
    CHECK(commands(state, 0xB4, 0x89) && commands(state, 0xB5, 0x81));
    CHECK(commands(state, 0xE1, 0x81) && commands(state, 0xE2, 0x83) && commands(state, 0xE4, 0x85));
    CHECK(commands(state, 0xE8, 0x89) && commands(state, 0xEE, 0x8F));
}

/* The version byte, the mode, and that there is no lock code. */
static void try_answers(uint8_t *state)
{
    uint8_t answer[CALUGNID_ANSWER_BYTES];

    CHECK(puts_byte(state, 0xA1, VERSION, PS2_PORT));
    CHECK(puts_byte(state, 0xAF, VERSION, PS2_PORT));
    CHECK(puts_byte(state, 0xCA, 1, PS2_PORT));
    CHECK(puts_byte(state, 0xA4, 0xF1, PS2_PORT));
    CHECK(commands(state, 0xA5, PS2_PORT));
    calugnid_event(state, CALUGNID_WRITE_DATA, 0x1E, answer);
    CHECK(answer[CALUGNID_ANSWER_DESTINATION] == CALUGNID_TO_KEYBOARD);
    CHECK(leaves(state, CALUGNID_BYTE_TAKEN, 0, 0x10, PS2_PORT));
    CHECK(commands(state, 0xA6, PS2_PORT));
    CHECK(calugnid_refusal(state, CALUGNID_WRITE_COMMAND, 0) == CALUGNID_ACCEPTED);
    CHECK(puts_byte(state, 0xA4, 0xF1, PS2_PORT));
}

/* What AT mode leaves out, it leaves out of this set too. */
static void try_pc_at_answers(uint8_t *state)
{
    CHECK(puts_byte(state, 0xA1, VERSION, PC_AT_PORT));
    CHECK(puts_byte(state, 0xAF, VERSION, PC_AT_PORT));
    CHECK(puts_byte(state, 0xCA, 0, PC_AT_PORT));
    CHECK(commands(state, 0xA4, PC_AT_PORT));
    CHECK(commands(state, 0xC1, PC_AT_PORT));
    CHECK(commands(state, 0xC2, PC_AT_PORT));
}

/* An image holds what this set adds, and the load is given the version byte: the
 * save's, so that all comes back, and another. */
static void try_images(uint8_t *state)
{
    uint8_t image[CALUGNID_IMAGE_BYTES], before[CALUGNID_STATE_BYTES];

    CHECK(commands(state, 0x90, PS2_PORT) && commands(state, 0xC8, PS2_PORT));
    CHECK(commands(state, 0xB4, PS2_PORT));
    CHECK(state[61] == 0x30 && state[62] == 2 && state[64] == VERSION);
    CHECK(calugnid_save(state, image, sizeof image) == CALUGNID_ACCEPTED);
    CHECK(memcmp(image, state, BODY_BYTES) == 0);
    memcpy(before, state, sizeof before);
    CHECK(calugnid_load(state, 0, image, 71) == CALUGNID_BAD_IMAGE);
    CHECK(memcmp(state, before, sizeof before) == 0);
    calugnid_start(state, CALUGNID_PC_AT, 0);
    CHECK(calugnid_load(state, VERSION, image, sizeof image) == CALUGNID_ACCEPTED);
    CHECK(memcmp(state, before, sizeof before) == 0);
    CHECK(puts_byte(state, 0xA1, VERSION, PS2_PORT));
    CHECK(puts_byte(state, 0xC0, 0xF0, PS2_PORT));
    CHECK(calugnid_load(state, VERSION + 1, image, sizeof image) == CALUGNID_ACCEPTED);
    CHECK(puts_byte(state, 0xAF, VERSION + 1, PS2_PORT));
    CHECK(puts_byte(state, 0xC0, 0xF0, PS2_PORT));
}

/* With the first set these commands change nothing but C, and no byte of what
 * the second set adds. */
static void try_first_set(uint8_t *state, uint8_t p2)
{
    uint8_t before[CALUGNID_STATE_BYTES];

    memcpy(before, state, sizeof before);
    for (unsigned command = 0x90; command <= 0xEF; command++) {
        bool second = command < 0xA0 || command == 0xA1 || (command >= 0xAF && command < 0xC0) ||
                      (command >= 0xC8 && command <= 0xCA) || command > 0xE0;

        if (!second)
            continue;
        CHECK(commands(state, (uint8_t)command, p2));
        CHECK(memcmp(state, before, sizeof before) == 0);
    }
}

int main(void)
{
    uint8_t state[CALUGNID_STATE_BYTES];

    start_ps2(state, CALUGNID_SECOND_SET);
    try_input_port(state, PS2_PORT);
    try_overlays(state);
    try_ps2_latches(state);
    try_answers(state);
    try_images(state);
    start_pc_at(state, CALUGNID_SECOND_SET);
    try_input_port(state, PC_AT_PORT);
    try_pc_at_answers(state);
    try_pc_at_latches(state);
    start_ps2(state, CALUGNID_ORDINARY);
    try_first_set(state, PS2_PORT);
    start_pc_at(state, CALUGNID_ORDINARY);
    try_first_set(state, PC_AT_PORT);
    return failures != 0;
}
