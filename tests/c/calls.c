/* Calls the functions of include/calugnid.h that take no key table and no
 * trackball, and move no image, from C, or from C++, and checks what they hand
 * back and write. */
#include "checks.h"

/* The frame of 14h, the same with the other parity, one without a stop bit, and
 * all ones, where the start bit is wrong. */
enum { SOUND = 0x628, WRONG_PARITY = 0x428, BROKEN = 0x3FE, NOISE = 0x7FF };

/* A version byte, which makes no difference to what is called here. */
enum { VERSION = 0x5A };

/* The printed case of the paper: self-test, status, data, data again. */
static const uint8_t list[] = {3, 0xAA, 0, 2, 0, 0, 0, 0, 0, 0, 0, 0};
static const uint8_t expected[] = {
    0, 0x00, 0, 0x1D, 0x03, 0, 0, 0, 0,
    0, 0x1D, 0, 0x1D, 0x03, 0, 0, 0, 0,
    0, 0x55, 0, 0x1C, 0x03, 0, 0, 0, 0,
    0, 0x55, 1, 0x1C, 0x03, 0, 0, 0, 0,
};

static void try_lists(void)
{
    uint8_t state[CALUGNID_STATE_BYTES], answers[sizeof expected];
    size_t count = 99;

    CHECK(calugnid_run(CALUGNID_ORDINARY, 0, list, sizeof list, answers, sizeof answers) == 0);
    CHECK(memcmp(answers, expected, sizeof expected) == 0);
    CHECK(calugnid_run(CALUGNID_ORDINARY, 0, list, 2, answers, sizeof answers) == CALUGNID_BAD_LIST);
    CHECK(calugnid_run(CALUGNID_ORDINARY, 0, list, sizeof list, answers, 35) == CALUGNID_NO_ROOM);
    memset(answers, 0xA5, sizeof answers);
    calugnid_start(state, CALUGNID_ORDINARY, 0);
    CHECK(calugnid_run_state(state, list, sizeof list, answers, 35) == CALUGNID_NO_ROOM);
    CHECK(calugnid_run_state(state, list, 1, answers, 35) == CALUGNID_BAD_LIST);
    CHECK(answers[0] == 0xA5);
    CHECK(calugnid_run_state(state, list, sizeof list, answers, sizeof answers) == 0);
    CHECK(memcmp(answers, expected, sizeof expected) == 0);
    memset(answers, 0xA5, sizeof answers);
    calugnid_start(state, CALUGNID_ORDINARY, 0);
    CHECK(calugnid_run_fitting(state, list, sizeof list - 1, answers, 26, &count) == CALUGNID_BAD_LIST);
    CHECK(count == 99 && answers[0] == 0xA5);
    CHECK(calugnid_run_fitting(state, list, sizeof list, answers, 26, &count) == 0);
    CHECK(count == 2 && memcmp(answers, expected, 18) == 0 && answers[18] == 0xA5);
}

static void try_events(void)
{
    static const uint8_t fresh[] = {0, 0, 0, 0x10, 0x4B, 0, 0, 0, 0};
    static const uint8_t sending[] = {0, 0, 0, 0x12, 0x0B, 0, 1, 0x28, 0x06};
    uint8_t state[CALUGNID_STATE_BYTES], answer[CALUGNID_ANSWER_BYTES];

    calugnid_start(state, CALUGNID_ORDINARY, 0);
    calugnid_lines(state, answer);
    CHECK(memcmp(answer, fresh, sizeof fresh) == 0);
    CHECK(calugnid_refusal(state, CALUGNID_KEYBOARD_FRAME, 0x628) == CALUGNID_NOT_READY);
    CHECK(calugnid_refusal(state, CALUGNID_BYTE_TAKEN, 0) == CALUGNID_NOT_SENDING);
    CHECK(calugnid_refusal(state, CALUGNID_PINS, 0x100) == CALUGNID_BAD_VALUE);
    CHECK(calugnid_refusal(state, 9, 0) == CALUGNID_BAD_KIND);
    CHECK(calugnid_sent_byte(state) == 0);
    CHECK(calugnid_refusal(state, CALUGNID_WRITE_DATA, 0x14) == CALUGNID_ACCEPTED);
    calugnid_event(state, CALUGNID_WRITE_DATA, 0x14, answer);
    CHECK(memcmp(answer, sending, sizeof sending) == 0);
    CHECK(calugnid_sent_byte(state) == 0x14);
    calugnid_event(state, CALUGNID_WRITE_DATA, 0x14, answer);
    CHECK(answer[CALUGNID_ANSWER_REFUSAL] == CALUGNID_SENDING);
}

/* An image's body is the state without its version byte and its key table, and
 * an image may stand behind other bytes. */
static void try_images(void)
{
    uint8_t state[CALUGNID_STATE_BYTES], other[CALUGNID_STATE_BYTES];
    uint8_t bytes[7 + CALUGNID_IMAGE_BYTES], saved[CALUGNID_IMAGE_BYTES];
    uint8_t answers[sizeof expected];

    calugnid_start(state, CALUGNID_ORDINARY, 0);
    memset(bytes, 0, 7);
    CHECK(calugnid_save(state, saved, 71) == CALUGNID_NO_SAVE_ROOM);
    CHECK(calugnid_save(state, bytes + 7, CALUGNID_IMAGE_BYTES) == CALUGNID_ACCEPTED);
    CHECK(memcmp(bytes + 7, state, BODY_BYTES) == 0);
    CHECK(calugnid_find(bytes, sizeof bytes) == 7);
    CHECK(calugnid_find(bytes, sizeof bytes - 1) == sizeof bytes - 1);
    CHECK(calugnid_load(other, 0, bytes, sizeof bytes) == CALUGNID_ACCEPTED);
    CHECK(memcmp(other, state, sizeof state) == 0);
    CHECK(calugnid_load(other, 0, bytes, 71) == CALUGNID_BAD_IMAGE);
    CHECK(calugnid_run_image(0, bytes, sizeof bytes, list, sizeof list, answers, sizeof answers,
                             saved, sizeof saved) == CALUGNID_ACCEPTED);
    CHECK(memcmp(answers, expected, sizeof expected) == 0);
    CHECK(calugnid_run_state(state, list, sizeof list, answers, sizeof answers) == 0);
    CHECK(memcmp(saved, state, BODY_BYTES) == 0);
    saved[3] |= 4; /* a third latch, and the sum put right for it */
    put_trailer(saved, BODY_BYTES, 2);
    CHECK(calugnid_load(other, 0, saved, sizeof saved) == CALUGNID_BAD_BODY);
}

/* Fresh whatever the options, which stand in byte 60 less their unused bits, and
 * whatever the version byte, behind which the key table stands. */
static void try_starts(void)
{
    uint8_t state[CALUGNID_STATE_BYTES], fresh[CALUGNID_STATE_BYTES] = {0};

    fresh[2] = 0xFF;  /* P1 */
    fresh[3] = 3;     /* P20 and P21 */
    fresh[28] = 0x70; /* command byte */
    fresh[61] = 0x3F; /* P10-P15, with the second command set */
    fresh[62] = 3;    /* P22 and P23 */
    built_in_table(fresh + CALUGNID_STATE_TABLE);
    for (unsigned i = 0; i < 256 * 256; i++) {
        uint8_t options = (uint8_t)(i % 256), version = (uint8_t)(i / 256);

        fresh[OPTIONS_BYTE] = options % OPTION_CHOICES;
        fresh[64] = version;
        memset(state, 0xA5, sizeof state);
        calugnid_start(state, options, version);
        CHECK(memcmp(state, fresh, sizeof fresh) == 0);
    }
}

/* Mouse on, key switch turned, a mouse frame, a read; and the answers with the
 * ordinary settings, with mouse lock, and in AT mode, where the mouse is not
 * switched on and its frame is refused by 12. */
static const uint8_t turned[] = {3, 0xA8, 0, 8, 0x7F, 0, 5, 0x28, 6, 0, 0, 0};
static const uint8_t shown[] = {
    0, 0x00, 0, 0x18, 0x43, 0, 0, 0, 0,
    0, 0x00, 0, 0x08, 0x43, 0, 0, 0, 0,
    0, 0x00, 0, 0x29, 0x43, 0, 0, 0, 0,
    0, 0x14, 0, 0x08, 0x43, 0, 0, 0, 0,
};
static const uint8_t kept_back[] = {
    0, 0x00, 0, 0x18, 0x43, 0, 0, 0, 0,
    0, 0x00, 0, 0x08, 0x43, 0, 0, 0, 0,
    0, 0x00, 0, 0x08, 0x43, 0, 0, 0, 0,
    0, 0x00, 1, 0x08, 0x43, 0, 0, 0, 0,
};

static const uint8_t no_mouse[] = {
    0, 0x00, 0, 0x18, 0xCF, 0, 0, 0, 0,
    0, 0x00, 0, 0x08, 0xCF, 0, 0, 0, 0,
    12, 0x00, 0, 0x08, 0xCF, 0, 0, 0, 0,
    0, 0x00, 1, 0x08, 0xCF, 0, 0, 0, 0,
};
static const uint8_t *const by_option[OPTION_CHOICES] = {shown, kept_back, no_mouse, no_mouse,
                                                         shown, kept_back, no_mouse, no_mouse};

static void try_lists_with_options(void)
{
    uint8_t state[CALUGNID_STATE_BYTES], answers[sizeof shown];
    size_t count;

    for (int options = 0; options < 256; options++) {
        const uint8_t *right = by_option[options % OPTION_CHOICES];

        memset(answers, 0xA5, sizeof answers);
        CHECK(calugnid_run((uint8_t)options, VERSION, turned, sizeof turned, answers, 36) == 0);
        CHECK(memcmp(answers, right, sizeof answers) == 0);
        calugnid_start(state, (uint8_t)options, VERSION);
        memset(answers, 0xA5, sizeof answers);
        CHECK(calugnid_run_state(state, turned, sizeof turned, answers, 36) == 0);
        CHECK(memcmp(answers, right, sizeof answers) == 0);
        calugnid_start(state, (uint8_t)options, VERSION);
        memset(answers, 0xA5, sizeof answers);
        CHECK(calugnid_run_fitting(state, turned, sizeof turned, answers, sizeof answers, &count) == 0);
        CHECK(count == sizeof turned / CALUGNID_EVENT_BYTES && memcmp(answers, right, sizeof answers) == 0);
    }
}

/* A controller with this command byte, which has both devices on, and the key
 * switch turned. */
static void start_turned(uint8_t *state, uint8_t options, uint8_t command_byte)
{
    calugnid_start(state, options, VERSION);
    CHECK(leaves(state, CALUGNID_WRITE_COMMAND, 0x60, 0x18, 0x4B));
    CHECK(leaves(state, CALUGNID_WRITE_DATA, command_byte, 0x10, 0x03));
    CHECK(leaves(state, CALUGNID_PINS, 0x7F, 0x00, 0x03));
}

/* The mouse's interrupt on, without and with the inhibit override. */
static const uint8_t command_bytes[] = {0x02, 0x0A};

/* No mouse frame puts a byte until the key switch is turned back, but the error
 * bits tell of each. */
static void try_mouse_lock(void)
{
    uint8_t state[CALUGNID_STATE_BYTES];

    for (size_t i = 0; i < sizeof command_bytes; i++) {
        start_turned(state, CALUGNID_MOUSE_LOCK, command_bytes[i]);
        CHECK(leaves(state, CALUGNID_MOUSE_FRAME, WRONG_PARITY, 0x80, 0x03));
        CHECK(leaves(state, CALUGNID_MOUSE_FRAME, BROKEN, 0x40, 0x03));
        CHECK(leaves(state, CALUGNID_MOUSE_FRAME, SOUND, 0x00, 0x03));
        CHECK(reads(state, 0x00, true));
        CHECK(leaves(state, CALUGNID_PINS, 0x80, 0x10, 0x03));
        CHECK(leaves(state, CALUGNID_MOUSE_FRAME, SOUND, 0x31, 0x23));
        CHECK(reads(state, 0x14, false));
    }
}

/* With the ordinary settings each mouse frame puts a byte, key switch or not. */
static void try_no_mouse_lock(void)
{
    uint8_t state[CALUGNID_STATE_BYTES];

    for (size_t i = 0; i < sizeof command_bytes; i++) {
        start_turned(state, CALUGNID_ORDINARY, command_bytes[i]);
        CHECK(leaves(state, CALUGNID_MOUSE_FRAME, WRONG_PARITY, 0xA1, 0x23));
        CHECK(reads(state, 0xFF, false));
        CHECK(leaves(state, CALUGNID_MOUSE_FRAME, BROKEN, 0x61, 0x23));
        CHECK(reads(state, 0xFF, false));
        CHECK(leaves(state, CALUGNID_MOUSE_FRAME, SOUND, 0x21, 0x23));
        CHECK(reads(state, 0x14, false));
    }
}

/* Mouse lock keeps back nothing but frames of the mouse: not the FEh of a byte
 * that timed out, no byte that the host puts, and no key past the override. */
static void try_beside_mouse_lock(void)
{
    uint8_t state[CALUGNID_STATE_BYTES], answer[CALUGNID_ANSWER_BYTES];

    start_turned(state, CALUGNID_MOUSE_LOCK, 0x0A);
    CHECK(leaves(state, CALUGNID_WRITE_COMMAND, 0xD4, 0x08, 0x03));
    calugnid_event(state, CALUGNID_WRITE_DATA, 0xF4, answer);
    CHECK(answer[CALUGNID_ANSWER_DESTINATION] == CALUGNID_TO_MOUSE);
    CHECK(calugnid_refusal(state, CALUGNID_MOUSE_FRAME, SOUND) == CALUGNID_NOT_READY);
    CHECK(leaves(state, CALUGNID_BYTE_TIMED_OUT, 0, 0x61, 0x23));
    CHECK(calugnid_refusal(state, CALUGNID_MOUSE_FRAME, SOUND) == CALUGNID_NOT_READY);
    CHECK(reads(state, 0xFE, false));
    CHECK(leaves(state, CALUGNID_WRITE_COMMAND, 0xD3, 0x48, 0x03));
    CHECK(leaves(state, CALUGNID_WRITE_DATA, 0x5A, 0x61, 0x23));
    CHECK(reads(state, 0x5A, false));
    CHECK(leaves(state, CALUGNID_KEYBOARD_FRAME, SOUND, 0x01, 0x03));
    CHECK(reads(state, 0x14, false));
    CHECK(calugnid_refusal(state, CALUGNID_MOUSE_FRAME, SOUND) == CALUGNID_ACCEPTED);
    CHECK(leaves(state, CALUGNID_WRITE_COMMAND, 0xA7, 0x08, 0x0B));
    CHECK(calugnid_refusal(state, CALUGNID_MOUSE_FRAME, SOUND) == CALUGNID_NOT_READY);
}

/* An image holds mouse lock: a load gives the image's, whatever the state had. A
 * refused load keeps that of the state. */
static void try_loads_with_mouse_lock(void)
{
    uint8_t state[CALUGNID_STATE_BYTES], before[CALUGNID_STATE_BYTES];
    uint8_t image[CALUGNID_IMAGE_BYTES], ordinary[CALUGNID_IMAGE_BYTES];

    start_turned(state, CALUGNID_ORDINARY, 0x02);
    CHECK(calugnid_save(state, ordinary, sizeof ordinary) == CALUGNID_ACCEPTED);
    start_turned(state, CALUGNID_MOUSE_LOCK, 0x02);
    memcpy(before, state, sizeof state);
    CHECK(calugnid_save(state, image, sizeof image) == CALUGNID_ACCEPTED);
    CHECK(memcmp(image, ordinary, OPTIONS_BYTE) == 0);
    CHECK(image[OPTIONS_BYTE] == CALUGNID_MOUSE_LOCK && ordinary[OPTIONS_BYTE] == 0);
    CHECK(calugnid_load(state, VERSION, ordinary, sizeof ordinary) == CALUGNID_ACCEPTED);
    CHECK(leaves(state, CALUGNID_MOUSE_FRAME, SOUND, 0x21, 0x23));
    CHECK(reads(state, 0x14, false));
    CHECK(calugnid_load(state, VERSION, image, sizeof image) == CALUGNID_ACCEPTED);
    CHECK(memcmp(state, before, sizeof state) == 0);
    CHECK(leaves(state, CALUGNID_MOUSE_FRAME, SOUND, 0x00, 0x03));
    ordinary[3] |= 4; /* a third latch, and the sum put right for it */
    put_trailer(ordinary, BODY_BYTES, 2);
    CHECK(calugnid_load(state, VERSION, ordinary, sizeof ordinary) == CALUGNID_BAD_BODY);
    CHECK(calugnid_load(state, VERSION, ordinary, 71) == CALUGNID_BAD_IMAGE);
    CHECK(memcmp(state, before, sizeof state) == 0);
    CHECK(leaves(state, CALUGNID_MOUSE_FRAME, SOUND, 0x00, 0x03));
}

/* The call that loads, runs and saves has the settings of the image. */
static void try_run_image_with_mouse_lock(void)
{
    uint8_t state[CALUGNID_STATE_BYTES], answers[sizeof kept_back];
    uint8_t image[CALUGNID_IMAGE_BYTES], saved[CALUGNID_IMAGE_BYTES];

    calugnid_start(state, CALUGNID_MOUSE_LOCK, 0);
    CHECK(calugnid_save(state, image, sizeof image) == CALUGNID_ACCEPTED);
    CHECK(calugnid_run_image(0, image, sizeof image, turned, sizeof turned, answers,
                             sizeof answers, saved, sizeof saved) == CALUGNID_ACCEPTED);
    CHECK(memcmp(answers, kept_back, sizeof kept_back) == 0);
    CHECK(saved[OPTIONS_BYTE] == CALUGNID_MOUSE_LOCK);
}

/* Feeds noise from one device, with each stop bit and parity: the event is
 * refused by this number or accepted, and no byte of the state changes. */
static bool noise_leaves(uint8_t *state, uint8_t kind, uint8_t refusal)
{
    uint8_t before[CALUGNID_STATE_BYTES], answer[CALUGNID_ANSWER_BYTES];
    uint8_t right[CALUGNID_ANSWER_BYTES];

    memcpy(before, state, sizeof before);
    calugnid_lines(state, right);
    right[CALUGNID_ANSWER_REFUSAL] = refusal;
    for (uint16_t value = 1; value < 0x800; value += 2) {
        calugnid_event(state, kind, value, answer);
        if (memcmp(answer, right, sizeof right) != 0 || memcmp(state, before, sizeof before) != 0)
            return false;
    }
    return true;
}

/* Noise from either device. */
static bool noises_leave(uint8_t *state, uint8_t refusal)
{
    return noise_leaves(state, CALUGNID_KEYBOARD_FRAME, refusal) &&
           noise_leaves(state, CALUGNID_MOUSE_FRAME, refusal);
}

/* Noise leaves error bits, break flag and an unread byte, and is refused where
 * any frame is. In PS/2 mode the options make no difference. */
static void try_noise(uint8_t options)
{
    uint8_t state[CALUGNID_STATE_BYTES], answer[CALUGNID_ANSWER_BYTES];

    calugnid_start(state, options, VERSION);
    CHECK(noises_leave(state, CALUGNID_NOT_READY)); /* both devices are off */
    CHECK(leaves(state, CALUGNID_WRITE_COMMAND, 0xAE, 0x18, 0x0B));
    CHECK(leaves(state, CALUGNID_WRITE_COMMAND, 0xA8, 0x18, 0x03));
    CHECK(noises_leave(state, CALUGNID_ACCEPTED));
    CHECK(leaves(state, CALUGNID_KEYBOARD_FRAME, BROKEN, 0x59, 0x03));
    CHECK(noises_leave(state, CALUGNID_NOT_READY)); /* FFh waits */
    CHECK(reads(state, 0xFF, false));
    CHECK(noises_leave(state, CALUGNID_ACCEPTED)); /* TERR stays */
    CHECK(leaves(state, CALUGNID_MOUSE_FRAME, WRONG_PARITY, 0xB9, 0x03));
    CHECK(reads(state, 0xFF, false));
    CHECK(noises_leave(state, CALUGNID_ACCEPTED)); /* PERR stays */
    CHECK(leaves(state, CALUGNID_KEYBOARD_FRAME, calugnid_frame(0xF0), 0x18, 0x03));
    CHECK(noises_leave(state, CALUGNID_ACCEPTED)); /* the break flag stays */
    CHECK(leaves(state, CALUGNID_KEYBOARD_FRAME, SOUND, 0x19, 0x03));
    CHECK(reads(state, 0x9D, false));
    calugnid_event(state, CALUGNID_WRITE_DATA, 0xED, answer);
    CHECK(noises_leave(state, CALUGNID_NOT_READY)); /* a byte is being sent */
    CHECK(calugnid_refusal(state, CALUGNID_MOUSE_FRAME, 0x801) == CALUGNID_BAD_VALUE);
}

/* With mouse lock and the key switch turned too. */
static void try_noise_with_turned_switch(void)
{
    uint8_t state[CALUGNID_STATE_BYTES];

    start_turned(state, CALUGNID_MOUSE_LOCK, 0x02);
    CHECK(leaves(state, CALUGNID_MOUSE_FRAME, BROKEN, 0x40, 0x03));
    CHECK(noises_leave(state, CALUGNID_ACCEPTED));
    CHECK(leaves(state, CALUGNID_PINS, 0xFF, 0x50, 0x03));
    CHECK(noises_leave(state, CALUGNID_ACCEPTED));
}

/* A controller with both devices on, locked with this code, which ends in 00h. */
static void start_locked(uint8_t *state, uint8_t options, const uint8_t *code, size_t length)
{
    calugnid_start(state, options, VERSION);
    CHECK(leaves(state, CALUGNID_WRITE_COMMAND, 0xAE, 0x18, 0x0B));
    CHECK(leaves(state, CALUGNID_WRITE_COMMAND, 0xA8, 0x18, 0x03));
    CHECK(leaves(state, CALUGNID_WRITE_COMMAND, 0xA5, 0x18, 0x03));
    for (size_t i = 0; i < length; i++)
        CHECK(leaves(state, CALUGNID_WRITE_DATA, code[i], 0x10, 0x03));
    CHECK(leaves(state, CALUGNID_WRITE_COMMAND, 0xA6, 0x18, 0x03));
}

/* Whether a key is taken by the lock, and a write after it refused or not. */
static bool typed(uint8_t *state, uint8_t key, uint8_t refusal)
{
    return leaves(state, CALUGNID_KEYBOARD_FRAME, calugnid_frame(key), 0x18, 0x03) &&
           calugnid_refusal(state, CALUGNID_WRITE_COMMAND, 0xA4) == refusal;
}

/* In the middle of a lock code of two keys the first of them stays typed. */
static void try_noise_while_locked(uint8_t options)
{
    static const uint8_t code[] = {0x1E, 0x30, 0x00};
    uint8_t state[CALUGNID_STATE_BYTES];

    start_locked(state, options, code, sizeof code);
    CHECK(typed(state, 0x1C, CALUGNID_LOCKED));
    CHECK(noises_leave(state, CALUGNID_ACCEPTED));
    CHECK(typed(state, 0x32, CALUGNID_ACCEPTED));
}

/* One key too many before the right code, with a save and a load between. A
 * load gives the position, so it keeps as much of the code as was typed. */
static void try_mismatches(uint8_t options)
{
    static const uint8_t code[] = {0x1E, 0x1E, 0x30, 0x00};
    uint8_t state[CALUGNID_STATE_BYTES], other[CALUGNID_STATE_BYTES];
    uint8_t image[CALUGNID_IMAGE_BYTES];

    start_locked(state, options, code, sizeof code);
    for (int i = 0; i < 3; i++)
        CHECK(typed(state, 0x1C, CALUGNID_LOCKED));
    CHECK(calugnid_save(state, image, sizeof image) == CALUGNID_ACCEPTED);
    CHECK(calugnid_load(other, VERSION, image, sizeof image) == CALUGNID_ACCEPTED);
    CHECK(typed(state, 0x32, CALUGNID_ACCEPTED));
    CHECK(typed(other, 0x32, CALUGNID_ACCEPTED));
    start_locked(state, options, code, sizeof code);
    CHECK(typed(state, 0x1C, CALUGNID_LOCKED));
    CHECK(typed(state, 0x32, CALUGNID_LOCKED));
    CHECK(typed(state, 0x1C, CALUGNID_LOCKED));
    CHECK(typed(state, 0x1C, CALUGNID_LOCKED));
    CHECK(typed(state, 0x32, CALUGNID_ACCEPTED));
}

/* In AT mode noise of the mouse is refused as every frame of it is. */
static bool noises_leave_pc_at(uint8_t *state, uint8_t refusal)
{
    return noise_leaves(state, CALUGNID_KEYBOARD_FRAME, refusal) &&
           noise_leaves(state, CALUGNID_MOUSE_FRAME, CALUGNID_NO_MOUSE);
}

/* A controller in AT mode with the keyboard on. The mouse cannot be. C8h lets
 * D1h write every latch with the second command set, as it does with the first. */
static void start_pc_at(uint8_t *state, uint8_t options)
{
    static const uint8_t fresh[] = {0, 0, 0, 0x10, 0xCF, 0, 0, 0, 0};
    uint8_t answer[CALUGNID_ANSWER_BYTES];

    calugnid_start(state, options, VERSION);
    calugnid_lines(state, answer);
    CHECK(memcmp(answer, fresh, sizeof fresh) == 0);
    CHECK(leaves(state, CALUGNID_WRITE_COMMAND, 0xAE, 0x18, 0x8F));
    CHECK(leaves(state, CALUGNID_WRITE_COMMAND, 0xA8, 0x18, 0x8F));
    CHECK(leaves(state, CALUGNID_WRITE_COMMAND, 0xC8, 0x18, 0x8F));
}

/* Whether D4h and a data byte send to the keyboard, the byte times out, and the
 * host reads FEh. The command byte has the keyboard's interrupt off. */
static bool times_out(uint8_t *state)
{
    uint8_t answer[CALUGNID_ANSWER_BYTES];

    calugnid_event(state, CALUGNID_WRITE_COMMAND, 0xD4, answer);
    calugnid_event(state, CALUGNID_WRITE_DATA, 0xF4, answer);
    return answer[CALUGNID_ANSWER_REFUSAL] == CALUGNID_ACCEPTED &&
           answer[CALUGNID_ANSWER_DESTINATION] == CALUGNID_TO_KEYBOARD &&
           leaves(state, CALUGNID_BYTE_TIMED_OUT, 0, 0x31, 0x8F) && reads(state, 0xFE, false);
}

/* Each of the three error bits by itself: a byte that timed out is bit 5, a
 * framing error 6, a parity error 7; the next of them clears the others. */
static void try_pc_at_errors(uint8_t options)
{
    uint8_t state[CALUGNID_STATE_BYTES], answer[CALUGNID_ANSWER_BYTES];

    start_pc_at(state, options);
    CHECK(times_out(state));
    CHECK(noises_leave_pc_at(state, CALUGNID_ACCEPTED));
    CHECK(leaves(state, CALUGNID_KEYBOARD_FRAME, BROKEN, 0x51, 0x8F));
    CHECK(noises_leave_pc_at(state, CALUGNID_NOT_READY)); /* FFh waits */
    CHECK(reads(state, 0xFF, false));
    CHECK(times_out(state));
    CHECK(leaves(state, CALUGNID_KEYBOARD_FRAME, WRONG_PARITY, 0x91, 0x8F));
    CHECK(reads(state, 0xFF, false));
    CHECK(times_out(state));
    CHECK(leaves(state, CALUGNID_KEYBOARD_FRAME, SOUND, 0x11, 0x8F));
    CHECK(reads(state, 0x1D, false));
    CHECK(times_out(state));
    calugnid_event(state, CALUGNID_WRITE_DATA, 0xF4, answer);
    CHECK(answer[CALUGNID_ANSWER_STATUS] == 0x32);
    CHECK(leaves(state, CALUGNID_BYTE_TAKEN, 0, 0x10, 0x8F));
}

/* A mouse frame is refused by 12 where another check would stand too, except 2.
 * No state changes. */
static void try_pc_at_mouse(uint8_t options)
{
    uint8_t state[CALUGNID_STATE_BYTES], answer[CALUGNID_ANSWER_BYTES];

    start_pc_at(state, options);
    CHECK(calugnid_refusal(state, CALUGNID_MOUSE_FRAME, SOUND) == CALUGNID_NO_MOUSE);
    CHECK(calugnid_refusal(state, CALUGNID_MOUSE_FRAME, 0x7FF) == CALUGNID_NO_MOUSE);
    CHECK(calugnid_refusal(state, CALUGNID_MOUSE_FRAME, 0x800) == CALUGNID_BAD_VALUE);
    calugnid_event(state, CALUGNID_WRITE_DATA, 0xED, answer);
    CHECK(calugnid_refusal(state, CALUGNID_MOUSE_FRAME, SOUND) == CALUGNID_NO_MOUSE);
    CHECK(calugnid_refusal(state, CALUGNID_KEYBOARD_FRAME, SOUND) == CALUGNID_NOT_READY);
    CHECK(leaves(state, CALUGNID_BYTE_TAKEN, 0, 0x10, 0x8F));
    CHECK(leaves(state, CALUGNID_WRITE_COMMAND, 0x60, 0x18, 0x8F));
    CHECK(leaves(state, CALUGNID_WRITE_DATA, 0x00, 0x10, 0x8F)); /* mouse on */
    CHECK(calugnid_refusal(state, CALUGNID_MOUSE_FRAME, SOUND) == CALUGNID_NO_MOUSE);
}

/* The output port: five latches by D1h, none by pins; the rest of it, E0h, and
 * lines pulsed. */
static void try_pc_at_port(uint8_t options)
{
    uint8_t state[CALUGNID_STATE_BYTES], answer[CALUGNID_ANSWER_BYTES];

    start_pc_at(state, options);
    CHECK(leaves(state, CALUGNID_WRITE_COMMAND, 0xD1, 0x18, 0x8F));
    CHECK(leaves(state, CALUGNID_WRITE_DATA, 0xFA, 0x10, 0xAA));
    CHECK(leaves(state, CALUGNID_PINS, 0x80, 0x10, 0xAA));
    CHECK(puts_byte(state, 0xD0, 0xAA, 0xAA));
    CHECK(puts_byte(state, 0xE0, 0x03, 0xAA));
    CHECK(leaves(state, CALUGNID_WRITE_COMMAND, 0xAD, 0x18, 0xEA));
    CHECK(puts_byte(state, 0xE0, 0x01, 0xEA));
    CHECK(leaves(state, CALUGNID_WRITE_COMMAND, 0xD1, 0x18, 0xEA));
    CHECK(leaves(state, CALUGNID_WRITE_DATA, 0x15, 0x10, 0xC5));
    CHECK(leaves(state, CALUGNID_WRITE_COMMAND, 0x60, 0x18, 0xC5));
    CHECK(leaves(state, CALUGNID_WRITE_DATA, 0x21, 0x10, 0x85)); /* EKI */
    CHECK(leaves(state, CALUGNID_KEYBOARD_FRAME, SOUND, 0x11, 0x95));
    for (unsigned command = 0xF0; command <= 0xFF; command++) {
        calugnid_event(state, CALUGNID_WRITE_COMMAND, (uint8_t)command, answer);
        CHECK(answer[CALUGNID_ANSWER_PULSE] == 0xFF - command);
        CHECK(answer[CALUGNID_ANSWER_P2] == 0x95);
    }
    CHECK(reads(state, 0x14, false));
}

/* In AT mode these commands do nothing but set C, and the next data byte goes
 * to the keyboard. */
static void try_pc_at_commands(uint8_t options)
{
    static const uint8_t commands[] = {0xA4, 0xA5, 0xA6, 0xA7, 0xA8, 0xA9,
                                       0xC1, 0xC2, 0xD2, 0xD3, 0xD4};
    uint8_t state[CALUGNID_STATE_BYTES], answer[CALUGNID_ANSWER_BYTES];

    start_pc_at(state, options);
    for (size_t i = 0; i < sizeof commands; i++) {
        CHECK(leaves(state, CALUGNID_WRITE_COMMAND, 0x74, 0x18, 0x8F));
        CHECK(leaves(state, CALUGNID_WRITE_COMMAND, commands[i], 0x18, 0x8F));
        calugnid_event(state, CALUGNID_WRITE_DATA, 0x14, answer);
        CHECK(answer[CALUGNID_ANSWER_DESTINATION] == CALUGNID_TO_KEYBOARD);
        CHECK(leaves(state, CALUGNID_BYTE_TAKEN, 0, 0x10, 0x8F));
        CHECK(puts_byte(state, 0x34, 0x00, 0x8F)); /* cell 14h was not written */
    }
}

/* An image holds what AT mode adds: the mode, latches and time-out come back. */
static void try_pc_at_images(uint8_t options)
{
    uint8_t state[CALUGNID_STATE_BYTES], before[CALUGNID_STATE_BYTES];
    uint8_t image[CALUGNID_IMAGE_BYTES];
    uint8_t allowed = options & CALUGNID_SECOND_SET ? 8 : 0;

    start_pc_at(state, options);
    CHECK(times_out(state));
    CHECK(leaves(state, CALUGNID_WRITE_COMMAND, 0xD1, 0x38, 0x8F));
    CHECK(leaves(state, CALUGNID_WRITE_DATA, 0x22, 0x30, 0xA2));
    CHECK(state[OPTIONS_BYTE] == options % OPTION_CHOICES + allowed);
    CHECK(state[62] == 0x08 && state[63] == 0x01);
    CHECK(calugnid_save(state, image, sizeof image) == CALUGNID_ACCEPTED);
    CHECK(memcmp(image, state, BODY_BYTES) == 0);
    memcpy(before, state, sizeof state);
    CHECK(calugnid_load(state, 0, image, 71) == CALUGNID_BAD_IMAGE);
    CHECK(memcmp(state, before, sizeof state) == 0);
    calugnid_start(state, CALUGNID_ORDINARY, 0);
    CHECK(calugnid_load(state, VERSION, image, sizeof image) == CALUGNID_ACCEPTED);
    CHECK(memcmp(state, before, sizeof state) == 0);
    CHECK(leaves(state, CALUGNID_PINS, 0xFF, 0x30, 0xA2));
    CHECK(calugnid_refusal(state, CALUGNID_MOUSE_FRAME, SOUND) == CALUGNID_NO_MOUSE);
}

static void try_pc_at(uint8_t options)
{
    try_pc_at_errors(options);
    try_pc_at_mouse(options);
    try_pc_at_port(options);
    try_pc_at_commands(options);
    try_pc_at_images(options);
}

static void try_numbers(void)
{
    CHECK(calugnid_frame(0x14) == 0x628);
    CHECK(calugnid_judge(0x628) == 0x14);
    CHECK(calugnid_judge(0x428) == CALUGNID_PARITY_ERROR);
    CHECK(calugnid_judge(1022) == CALUGNID_FRAMING_ERROR);
    CHECK(calugnid_judge(1023) == CALUGNID_NOISE);
    CHECK(calugnid_judge(NOISE) == CALUGNID_NOISE);
    CHECK(calugnid_judge(0x629) == CALUGNID_NOISE);
    CHECK(calugnid_judge(0xE28) == CALUGNID_FRAMING_ERROR);
    CHECK(calugnid_judge(0xE29) == CALUGNID_FRAMING_ERROR);
    CHECK(calugnid_judge(0xFFFF) == CALUGNID_FRAMING_ERROR);
    CHECK(calugnid_translate(0x14, false) == (CALUGNID_YIELDS | 0x1D));
    CHECK(calugnid_translate(0x79, true) == (CALUGNID_YIELDS | 0xCE));
    CHECK(calugnid_translate(0xF0, false) == CALUGNID_BREAK_FLAG);
}

int main(void)
{
    try_lists();
    try_events();
    try_images();
    try_starts();
    try_lists_with_options();
    try_mouse_lock();
    try_no_mouse_lock();
    try_beside_mouse_lock();
    try_loads_with_mouse_lock();
    try_run_image_with_mouse_lock();
    for (int options = 0; options < 256; options++) {
        if (options & CALUGNID_PC_AT) {
            try_pc_at((uint8_t)options);
            continue;
        }
        try_noise((uint8_t)options);
        if (options & CALUGNID_SECOND_SET)
            continue; /* no lock code */
        try_noise_while_locked((uint8_t)options);
        try_mismatches((uint8_t)options);
    }
    try_noise_with_turned_switch();
    try_numbers();
    return failures != 0;
}
