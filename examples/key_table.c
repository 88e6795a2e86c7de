/* The same keys on a controller with the built-in key table and on one with a
 * table for a keypad that has 1 2 3 in its upper row, where the keys of a PC's
 * have 7 8 9. Prints for each key the code that the host reads, then what becomes
 * of tables that a start does not take. */
#include <stdio.h>
#include <string.h>

#include "calugnid.h"

enum { BUILT_IN, OWN, CONTROLLERS };

enum { BREAK = 0xF0 };

/* Keys of the upper and of the lower row, as their bytes of scan code set 2. */
static const uint8_t UPPER[] = {0x6C, 0x75, 0x7D};
static const uint8_t LOWER[] = {0x69, 0x72, 0x7A};

struct panel {
    uint8_t states[CONTROLLERS][CALUGNID_STATE_BYTES];
    uint8_t table[CALUGNID_TABLE_BYTES];
};

/* The built-in table stands in a fresh state. */
static void make_table(struct panel *panel)
{
    memcpy(panel->table, panel->states[BUILT_IN] + CALUGNID_STATE_TABLE, sizeof panel->table);
    for (size_t i = 0; i < sizeof UPPER; i++) {
        uint8_t code = panel->table[UPPER[i]];

        panel->table[UPPER[i]] = panel->table[LOWER[i]];
        panel->table[LOWER[i]] = code;
    }
}

static void every(struct panel *panel, uint8_t kind, uint16_t value)
{
    uint8_t answer[CALUGNID_ANSWER_BYTES];

    for (int i = 0; i < CONTROLLERS; i++)
        calugnid_event(panel->states[i], kind, value, answer);
}

static void type(struct panel *panel, uint8_t byte)
{
    every(panel, CALUGNID_KEYBOARD_FRAME, calugnid_frame(byte));
}

static void read_codes(struct panel *panel, const char *what)
{
    uint8_t answer[CALUGNID_ANSWER_BYTES];

    printf("%-32s", what);
    for (int i = 0; i < CONTROLLERS; i++) {
        calugnid_event(panel->states[i], CALUGNID_READ_DATA, 0, answer);
        if (answer[CALUGNID_ANSWER_OLD])
            printf("   --");
        else
            printf("   %02X", answer[CALUGNID_ANSWER_READ]);
    }
    printf("\n");
}

static void press(struct panel *panel, const char *what, uint8_t byte)
{
    type(panel, byte);
    read_codes(panel, what);
}

static void release(struct panel *panel, const char *what, uint8_t byte)
{
    type(panel, BREAK);
    read_codes(panel, "F0, the break prefix");
    press(panel, what, byte);
}

/* The lock takes the codes of the table: 4Fh 50h are the keys 1 and 2 here. */
static void lock(struct panel *panel)
{
    static const uint8_t CODE[] = {0x4F, 0x50, 0x00};

    every(panel, CALUGNID_WRITE_COMMAND, 0xA5);
    for (size_t i = 0; i < sizeof CODE; i++)
        every(panel, CALUGNID_WRITE_DATA, CODE[i]);
    every(panel, CALUGNID_WRITE_COMMAND, 0xA6);
    type(panel, UPPER[0]);
    type(panel, UPPER[1]);
    press(panel, "locked, after 1 and 2: 1C", 0x1C);
}

static void try_table(struct panel *panel, const char *what, size_t length, uint8_t at, uint8_t code)
{
    uint8_t kept[CALUGNID_STATE_BYTES], table[CALUGNID_TABLE_BYTES + 1] = {0};
    uint8_t check;

    memcpy(kept, panel->states[OWN], sizeof kept);
    memcpy(table, panel->table, sizeof panel->table);
    table[at] = code;
    check = calugnid_start_with_table(panel->states[OWN], CALUGNID_ORDINARY, 0, table, length);
    printf("%-32s   %2d%s\n", what, check,
           memcmp(kept, panel->states[OWN], sizeof kept) ? ", started" : ", state as it was");
}

int main(void)
{
    struct panel panel;

    calugnid_start(panel.states[BUILT_IN], CALUGNID_ORDINARY, 0);
    make_table(&panel);
    if (calugnid_start_with_table(panel.states[OWN], CALUGNID_ORDINARY, 0, panel.table, sizeof panel.table))
        return 1;
    printf("%-32s   built-in, own\n", "");
    every(&panel, CALUGNID_WRITE_COMMAND, 0xAE);
    press(&panel, "6C, upper left", 0x6C);
    press(&panel, "75, upper middle", 0x75);
    press(&panel, "69, lower left", 0x69);
    press(&panel, "6B, middle left", 0x6B);
    release(&panel, "6C, released", 0x6C);
    lock(&panel);
    try_table(&panel, "257 entries", CALUGNID_TABLE_BYTES + 1, 0x6C, 0x4F);
    try_table(&panel, "6C and 69 give one code", CALUGNID_TABLE_BYTES, 0x6C, 0x47);
    try_table(&panel, "EE gives 00", CALUGNID_TABLE_BYTES, 0xEE, 0x00);
    try_table(&panel, "the table again", CALUGNID_TABLE_BYTES, 0x6C, 0x4F);
    return 0;
}
