/* The same events on three controllers: with the first command set, with the
 * second, which is the VT82C42's, and with the second in AT mode. Prints for each
 * the status and P2 after the event, and the byte that the host then reads, where
 * there is one. */
#include <stdio.h>

#include "calugnid.h"

enum { FIRST, SECOND, SECOND_PC_AT, CONTROLLERS };

enum { VERSION = 0x46 }; /* what the panel's firmware is to be told */

struct panel {
    uint8_t states[CONTROLLERS][CALUGNID_STATE_BYTES];
};

static void show(uint8_t *state, uint8_t kind, uint16_t value)
{
    uint8_t answer[CALUGNID_ANSWER_BYTES];

    calugnid_event(state, kind, value, answer);
    printf("   %02X %02X", answer[CALUGNID_ANSWER_STATUS], answer[CALUGNID_ANSWER_P2]);
    if (!(answer[CALUGNID_ANSWER_STATUS] & CALUGNID_STATUS_OBF)) {
        printf(" --");
        return;
    }
    calugnid_event(state, CALUGNID_READ_DATA, 0, answer);
    printf(" %02X", answer[CALUGNID_ANSWER_READ]);
}

static void compare(struct panel *panel, const char *what, uint8_t kind, uint16_t value)
{
    printf("%-32s", what);
    for (int i = 0; i < CONTROLLERS; i++)
        show(panel->states[i], kind, value);
    printf("\n");
}

static void command(struct panel *panel, const char *what, uint8_t byte)
{
    compare(panel, what, CALUGNID_WRITE_COMMAND, byte);
}

static void data(struct panel *panel, const char *what, uint8_t byte)
{
    compare(panel, what, CALUGNID_WRITE_DATA, byte);
}

static void start(struct panel *panel)
{
    printf("%-32s   first      second     second, AT\n", "");
    printf("%-32s   st p2 rd   st p2 rd   st p2 rd\n", "");
    calugnid_start(panel->states[FIRST], CALUGNID_ORDINARY, VERSION);
    calugnid_start(panel->states[SECOND], CALUGNID_SECOND_SET, VERSION);
    calugnid_start(panel->states[SECOND_PC_AT], CALUGNID_SECOND_SET | CALUGNID_PC_AT, VERSION);
    command(panel, "A1, the version byte", 0xA1);
    command(panel, "CA, the mode", 0xCA);
    command(panel, "A4, is there a lock code", 0xA4);
}

/* A line of P1 reads 1 where its pin and its latch are 1. */
static void use_input_port(struct panel *panel)
{
    printf("-- the input port\n");
    command(panel, "9A, P13 and P11 1, P12 and P10 0", 0x9A);
    command(panel, "B7, P15 0", 0xB7);
    command(panel, "C0, read", 0xC0);
    compare(panel, "pins 7F, the key switch turned", CALUGNID_PINS, 0x7F);
    command(panel, "C1, lines over the status", 0xC1);
    compare(panel, "pins FF", CALUGNID_PINS, 0xFF);
}

/* P22 and P23 show in AT mode; D1h writes them where C8h allows it. */
static void use_output_port(struct panel *panel)
{
    printf("-- the output port\n");
    command(panel, "D1, written", 0xD1);
    data(panel, "03, P22 and P23 0", 0x03);
    command(panel, "C8, D1 may write P22 and P23", 0xC8);
    command(panel, "D1", 0xD1);
    data(panel, "03", 0x03);
    command(panel, "BC, P22 1", 0xBC);
    command(panel, "E8, P23 1, P22 and P21 0", 0xE8);
    command(panel, "D0, read", 0xD0);
}

int main(void)
{
    struct panel panel;

    start(&panel);
    use_input_port(&panel);
    use_output_port(&panel);
    return 0;
}
