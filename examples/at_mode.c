/* The same events on two controllers, one in PS/2 mode and one started in AT
 * mode. Prints for each the number of the check that refuses the event (00 for
 * none), the status and P2 after it, the lines that it pulses, and the byte
 * that the host then reads, where there is one. */
#include <stdio.h>

#include "calugnid.h"

enum { PARITY_BIT = 0x200, STOP_BIT = 0x400 }; /* of a frame */

struct pair {
    uint8_t ps2[CALUGNID_STATE_BYTES];
    uint8_t at[CALUGNID_STATE_BYTES];
};

static void show(uint8_t *state, uint8_t kind, uint16_t value)
{
    uint8_t answer[CALUGNID_ANSWER_BYTES];

    calugnid_event(state, kind, value, answer);
    printf("   %02X %02X %02X %02X",
           answer[CALUGNID_ANSWER_REFUSAL], answer[CALUGNID_ANSWER_STATUS],
           answer[CALUGNID_ANSWER_P2], answer[CALUGNID_ANSWER_PULSE]);
    if (!(answer[CALUGNID_ANSWER_STATUS] & CALUGNID_STATUS_OBF)) {
        printf(" --");
        return;
    }
    calugnid_event(state, CALUGNID_READ_DATA, 0, answer);
    printf(" %02X", answer[CALUGNID_ANSWER_READ]);
}

static void compare(struct pair *pair, const char *what, uint8_t kind, uint16_t value)
{
    printf("%-28s", what);
    show(pair->ps2, kind, value);
    show(pair->at, kind, value);
    printf("\n");
}

static void command(struct pair *pair, const char *what, uint8_t byte)
{
    compare(pair, what, CALUGNID_WRITE_COMMAND, byte);
}

static void data(struct pair *pair, const char *what, uint8_t byte)
{
    compare(pair, what, CALUGNID_WRITE_DATA, byte);
}

/* Each has its own output port. */
static void start(struct pair *pair)
{
    printf("%-28s   PS/2 mode        AT mode\n", "");
    printf("%-28s   rf st p2 pu rd   rf st p2 pu rd\n", "");
    calugnid_start(pair->ps2, CALUGNID_ORDINARY, 0);
    calugnid_start(pair->at, CALUGNID_PC_AT, 0);
    command(pair, "AA, the self-test", 0xAA);
    command(pair, "60, the command byte", 0x60);
    data(pair, "01, its interrupt on", 0x01);
    compare(pair, "the keyboard sends 1C", CALUGNID_KEYBOARD_FRAME, calugnid_frame(0x1C));
}

/* AT mode has more latches and pulses more lines. */
static void use_output_port(struct pair *pair)
{
    printf("-- the output port\n");
    command(pair, "D1, written", 0xD1);
    data(pair, "2B", 0x2B);
    command(pair, "D0, read", 0xD0);
    command(pair, "F0, pulsed", 0xF0);
    command(pair, "AD, the keyboard off", 0xAD);
    command(pair, "E0, the test inputs", 0xE0);
}

/* AT mode tells a byte that was not taken from a frame that was cut short. */
static void make_errors(struct pair *pair)
{
    uint16_t frame = calugnid_frame(0x1C);

    printf("-- errors\n");
    data(pair, "ED to the keyboard", 0xED);
    compare(pair, "timed out", CALUGNID_BYTE_TIMED_OUT, 0);
    compare(pair, "a key without a stop bit", CALUGNID_KEYBOARD_FRAME, frame ^ STOP_BIT);
    compare(pair, "a key with wrong parity", CALUGNID_KEYBOARD_FRAME, frame ^ PARITY_BIT);
    compare(pair, "a key", CALUGNID_KEYBOARD_FRAME, frame);
}

/* AT mode has no mouse and no lock code. */
static void leave_out(struct pair *pair)
{
    printf("-- what AT mode does not have\n");
    compare(pair, "the mouse sends 08", CALUGNID_MOUSE_FRAME, calugnid_frame(0x08));
    command(pair, "A9, the mouse's interface", 0xA9);
    command(pair, "A4, is there a lock code", 0xA4);
    command(pair, "C2, pins over the status", 0xC2);
    command(pair, "D2, a byte for the host", 0xD2);
    data(pair, "41", 0x41);
}

int main(void)
{
    struct pair pair;

    start(&pair);
    use_output_port(&pair);
    make_errors(&pair);
    leave_out(&pair);
    return 0;
}
