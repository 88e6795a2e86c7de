/* The same events on two controllers, one with the ordinary settings and one
 * started with mouse lock. Prints for each what the host gets: the status and
 * P2 after the event, and the byte that it reads, where there is one. */
#include <stdio.h>
#include <stdlib.h>

#include "calugnid.h"

enum {
    PARITY_BIT = 0x200, /* of a frame */
    STOP_BIT = 0x400,
    BOTH_INTERRUPTS = 0x03, /* command byte: both devices on, no translation */
    INHIBIT_OVERRIDE = 0x08,
    SWITCH_NOT_TURNED = 0xFF, /* P1 */
    SWITCH_TURNED = 0x7F
};

struct pair {
    uint8_t ordinary[CALUGNID_STATE_BYTES];
    uint8_t locking[CALUGNID_STATE_BYTES];
};

static void accept_event(uint8_t *state, uint8_t kind, uint16_t value, uint8_t *answer)
{
    calugnid_event(state, kind, value, answer);
    if (answer[CALUGNID_ANSWER_REFUSAL] == CALUGNID_ACCEPTED)
        return;
    printf("failed: an event was refused by %d\n", answer[CALUGNID_ANSWER_REFUSAL]);
    exit(1);
}

/* An event that puts no byte for the host. */
static void prepare(struct pair *pair, uint8_t kind, uint16_t value)
{
    uint8_t answer[CALUGNID_ANSWER_BYTES];

    accept_event(pair->ordinary, kind, value, answer);
    accept_event(pair->locking, kind, value, answer);
}

static void show(uint8_t *state, uint8_t kind, uint16_t value)
{
    uint8_t answer[CALUGNID_ANSWER_BYTES];

    accept_event(state, kind, value, answer);
    printf("   %02X %02X", answer[CALUGNID_ANSWER_STATUS], answer[CALUGNID_ANSWER_P2]);
    if (!(answer[CALUGNID_ANSWER_STATUS] & CALUGNID_STATUS_OBF)) {
        printf(" --");
        return;
    }
    accept_event(state, CALUGNID_READ_DATA, 0, answer);
    printf(" %02X", answer[CALUGNID_ANSWER_READ]);
}

static void compare(struct pair *pair, const char *what, uint8_t kind, uint16_t value)
{
    printf("%-28s", what);
    show(pair->ordinary, kind, value);
    show(pair->locking, kind, value);
    printf("\n");
}

static void set_command_byte(struct pair *pair, uint8_t byte)
{
    prepare(pair, CALUGNID_WRITE_COMMAND, 0x60);
    prepare(pair, CALUGNID_WRITE_DATA, byte);
}

static void start(struct pair *pair)
{
    printf("%-28s   ordinary   mouse lock\n", "");
    printf("%-28s   st p2 rd   st p2 rd\n", "");
    calugnid_start(pair->ordinary, CALUGNID_ORDINARY, 0);
    calugnid_start(pair->locking, CALUGNID_MOUSE_LOCK, 0);
    set_command_byte(pair, BOTH_INTERRUPTS);
    compare(pair, "the mouse sends 08", CALUGNID_MOUSE_FRAME, calugnid_frame(0x08));
}

/* The ordinary key switch is the keyboard's alone. Errors show all the same. */
static void turn_switch(struct pair *pair)
{
    uint16_t frame = calugnid_frame(0x08);

    printf("-- the key switch is turned\n");
    prepare(pair, CALUGNID_PINS, SWITCH_TURNED);
    compare(pair, "the keyboard sends 1C", CALUGNID_KEYBOARD_FRAME, calugnid_frame(0x1C));
    compare(pair, "the mouse sends 08", CALUGNID_MOUSE_FRAME, frame);
    compare(pair, "with wrong parity", CALUGNID_MOUSE_FRAME, frame ^ PARITY_BIT);
    compare(pair, "without a stop bit", CALUGNID_MOUSE_FRAME, frame ^ STOP_BIT);
}

/* The override lets keys through, and no mouse under mouse lock. */
static void override_switch(struct pair *pair)
{
    printf("-- inhibit override\n");
    set_command_byte(pair, BOTH_INTERRUPTS | INHIBIT_OVERRIDE);
    compare(pair, "the keyboard sends 1C", CALUGNID_KEYBOARD_FRAME, calugnid_frame(0x1C));
    compare(pair, "the mouse sends 08", CALUGNID_MOUSE_FRAME, calugnid_frame(0x08));
}

/* That no mouse answers is told by the controller, so the host reads FEh. */
static void send_to_mouse(struct pair *pair)
{
    printf("-- F4 sent to the mouse\n");
    prepare(pair, CALUGNID_WRITE_COMMAND, 0xD4);
    prepare(pair, CALUGNID_WRITE_DATA, 0xF4);
    compare(pair, "timed out", CALUGNID_BYTE_TIMED_OUT, 0);
}

static void turn_switch_back(struct pair *pair)
{
    printf("-- the key switch is turned back\n");
    prepare(pair, CALUGNID_PINS, SWITCH_NOT_TURNED);
    compare(pair, "the mouse sends 08", CALUGNID_MOUSE_FRAME, calugnid_frame(0x08));
}

/* An image holds the setting, so the loaded controller goes on with it. */
static void save_and_load(struct pair *pair)
{
    uint8_t image[CALUGNID_IMAGE_BYTES];

    printf("-- the second saved and loaded, the key switch turned\n");
    if (calugnid_save(pair->locking, image, sizeof image) != CALUGNID_ACCEPTED)
        exit(1);
    if (calugnid_load(pair->locking, 0, image, sizeof image) != CALUGNID_ACCEPTED)
        exit(1);
    prepare(pair, CALUGNID_PINS, SWITCH_TURNED);
    compare(pair, "the mouse sends 08", CALUGNID_MOUSE_FRAME, calugnid_frame(0x08));
}

int main(void)
{
    struct pair pair;

    start(&pair);
    turn_switch(&pair);
    override_switch(&pair);
    send_to_mouse(&pair);
    turn_switch_back(&pair);
    save_and_load(&pair);
    return 0;
}
