/* The calls that only ask, the answer by its names, the commands by theirs, the
 * texts, and the start-up and the lock code as the header describes them. */
#include "checks.h"

enum { VERSION = 0x5A };

/* An event that must be accepted; its answer. */
static struct calugnid_answer accepted(uint8_t *state, uint8_t kind, uint16_t value)
{
    struct calugnid_answer answer;

    CHECK(calugnid_ready(state, kind));
    calugnid_event(state, kind, value, calugnid_bytes(&answer));
    CHECK(answer.refusal == CALUGNID_ACCEPTED);
    CHECK(calugnid_status(state) == answer.status);
    return answer;
}

static void command(uint8_t *state, uint8_t byte)
{
    accepted(state, CALUGNID_WRITE_COMMAND, byte);
}

static void data(uint8_t *state, uint8_t byte)
{
    accepted(state, CALUGNID_WRITE_DATA, byte);
}

static void key(uint8_t *state, uint8_t byte)
{
    accepted(state, CALUGNID_KEYBOARD_FRAME, calugnid_frame(byte));
}

static void try_library(void)
{
    CHECK(calugnid_library_version() == CALUGNID_VERSION);
    CHECK(calugnid_state_bytes() == CALUGNID_STATE_BYTES);
    CHECK(calugnid_fits());
}

/* What the header says of a fresh controller. */
static void try_fresh(uint8_t options)
{
    uint8_t state[CALUGNID_STATE_BYTES];
    bool at_mode = (options & CALUGNID_PC_AT) != 0;

    calugnid_start(state, options, VERSION);
    CHECK(calugnid_status(state) == 0x10);
    CHECK(!calugnid_locked(state) && calugnid_sent_byte(state) == 0);
    CHECK(calugnid_options(state) == options % OPTION_CHOICES);
    CHECK(calugnid_version_byte(state) == VERSION);
    CHECK(calugnid_refusal(state, CALUGNID_KEYBOARD_FRAME, 0) == CALUGNID_NOT_READY);
    CHECK(!calugnid_ready(state, CALUGNID_KEYBOARD_FRAME));
    CHECK(!calugnid_ready(state, CALUGNID_BYTE_TAKEN) && !calugnid_ready(state, 9));
    command(state, CALUGNID_CMD_KEYBOARD_ON);
    CHECK(calugnid_ready(state, CALUGNID_KEYBOARD_FRAME));
    CHECK(!calugnid_ready(state, CALUGNID_MOUSE_FRAME));
    command(state, CALUGNID_CMD_MOUSE_ON);
    CHECK(calugnid_ready(state, CALUGNID_MOUSE_FRAME) == !at_mode);
    CHECK(calugnid_options(state) == options % OPTION_CHOICES);
}

/* The start-up of the header. */
static void try_start_up(void)
{
    uint8_t state[CALUGNID_STATE_BYTES];
    struct calugnid_answer answer;

    calugnid_start(state, CALUGNID_ORDINARY, 0);
    command(state, CALUGNID_CMD_SELF_TEST);
    CHECK(accepted(state, CALUGNID_READ_DATA, 0).read == 0x55);
    command(state, CALUGNID_CMD_WRITE_MODE);
    data(state, 0x47);
    answer = accepted(state, CALUGNID_KEYBOARD_FRAME, calugnid_frame(0x1C));
    CHECK(answer.p2 & CALUGNID_P2_KIRQ);
    CHECK(!calugnid_ready(state, CALUGNID_KEYBOARD_FRAME)); /* not read yet */
    answer = accepted(state, CALUGNID_READ_DATA, 0);
    CHECK(answer.read == 0x1E && !(answer.p2 & CALUGNID_P2_KIRQ));
    command(state, CALUGNID_CMD_READ_MODE);
    CHECK(accepted(state, CALUGNID_READ_DATA, 0).read ==
          (CALUGNID_MODE_EKI | CALUGNID_MODE_EMI | CALUGNID_MODE_SYS | CALUGNID_MODE_TRANSLATE));
}

/* The lock code of the header, and the key released after it. */
static void try_lock(void)
{
    uint8_t state[CALUGNID_STATE_BYTES];

    calugnid_start(state, CALUGNID_ORDINARY, 0);
    command(state, CALUGNID_CMD_KEYBOARD_ON);
    command(state, CALUGNID_CMD_LOAD_CODE);
    data(state, 0x1E);
    data(state, 0x30);
    data(state, 0x00);
    command(state, CALUGNID_CMD_ASK_CODE);
    CHECK(accepted(state, CALUGNID_READ_DATA, 0).read == 0xFA);
    CHECK(!calugnid_locked(state));
    command(state, CALUGNID_CMD_LOCK);
    CHECK(calugnid_locked(state) && !calugnid_ready(state, CALUGNID_WRITE_COMMAND));
    CHECK(calugnid_refusal(state, CALUGNID_WRITE_DATA, 0) == CALUGNID_LOCKED);
    key(state, 0x1C);
    key(state, 0x32);
    CHECK(!calugnid_locked(state) && !(calugnid_status(state) & CALUGNID_STATUS_OBF));
    key(state, 0xF0);
    key(state, 0x32);
    CHECK(accepted(state, CALUGNID_READ_DATA, 0).read == 0xB0);
}

/* Whether the command puts this byte. */
static bool puts_now(uint8_t *state, uint8_t byte, uint8_t put)
{
    command(state, byte);
    return accepted(state, CALUGNID_READ_DATA, 0).read == put;
}

/* What the command leaves the next data byte to do. */
static struct calugnid_answer with_data(uint8_t *state, uint8_t byte, uint8_t next)
{
    command(state, byte);
    return accepted(state, CALUGNID_WRITE_DATA, next);
}

/* The commands by their names. */
static void try_commands(void)
{
    uint8_t state[CALUGNID_STATE_BYTES];

    calugnid_start(state, CALUGNID_ORDINARY, 0);
    CHECK(puts_now(state, CALUGNID_CMD_READ_MODE, 0x70));
    with_data(state, CALUGNID_CMD_WRITE_CELL + 0x1F, 0x5A);
    CHECK(puts_now(state, CALUGNID_CMD_READ_CELL + 0x1F, 0x5A));
    CHECK(puts_now(state, CALUGNID_CMD_ASK_CODE, 0xF1));
    CHECK(puts_now(state, CALUGNID_CMD_TEST_MOUSE, 0x00));
    CHECK(puts_now(state, CALUGNID_CMD_TEST_KEYBOARD, 0x00));
    CHECK(puts_now(state, CALUGNID_CMD_READ_INPUTS, 0x00));
    command(state, CALUGNID_CMD_KEYBOARD_ON);
    command(state, CALUGNID_CMD_MOUSE_ON);
    CHECK(puts_now(state, CALUGNID_CMD_READ_INPUTS, 0x03));
    CHECK(puts_now(state, CALUGNID_CMD_READ_P2, 0x03));
    command(state, CALUGNID_CMD_KEYBOARD_OFF);
    command(state, CALUGNID_CMD_MOUSE_OFF);
    CHECK(puts_now(state, CALUGNID_CMD_READ_P2, 0x4B));
    accepted(state, CALUGNID_PINS, 0xA5);
    CHECK(puts_now(state, CALUGNID_CMD_READ_P1, 0xA5));
    command(state, CALUGNID_CMD_POLL_P1_LOW);
    CHECK(calugnid_status(state) >> 4 == 0x5);
    command(state, CALUGNID_CMD_POLL_P1_HIGH);
    CHECK(calugnid_status(state) >> 4 == 0xA);
    CHECK(with_data(state, CALUGNID_CMD_PUT_DATA, 0x41).status == 0x11);
    CHECK(accepted(state, CALUGNID_READ_DATA, 0).read == 0x41);
    CHECK(with_data(state, CALUGNID_CMD_PUT_AS_MOUSE, 0x42).status == 0x31);
    CHECK(accepted(state, CALUGNID_READ_DATA, 0).read == 0x42);
    CHECK(with_data(state, CALUGNID_CMD_SEND_TO_MOUSE, 0xF4).destination == CALUGNID_TO_MOUSE);
    accepted(state, CALUGNID_BYTE_TAKEN, 0);
    CHECK(accepted(state, CALUGNID_WRITE_COMMAND, CALUGNID_CMD_PULSE).pulse == 0x03);
}

/* Those of the second set, in AT mode, where P2 shows all its latches. */
static void try_second_commands(void)
{
    static const uint8_t low[] = {CALUGNID_CMD_P10_LOW, CALUGNID_CMD_P11_LOW, CALUGNID_CMD_P12_LOW,
                                  CALUGNID_CMD_P13_LOW, CALUGNID_CMD_P14_LOW, CALUGNID_CMD_P15_LOW};
    static const uint8_t high[] = {CALUGNID_CMD_P10_HIGH, CALUGNID_CMD_P11_HIGH,
                                   CALUGNID_CMD_P12_HIGH, CALUGNID_CMD_P13_HIGH,
                                   CALUGNID_CMD_P14_HIGH, CALUGNID_CMD_P15_HIGH};
    uint8_t state[CALUGNID_STATE_BYTES];

    calugnid_start(state, CALUGNID_SECOND_SET, VERSION);
    CHECK(puts_now(state, CALUGNID_CMD_WHICH_MODE, 0x01));
    calugnid_start(state, CALUGNID_SECOND_SET | CALUGNID_PC_AT, VERSION);
    CHECK(puts_now(state, CALUGNID_CMD_WHICH_MODE, 0x00));
    CHECK(puts_now(state, CALUGNID_CMD_READ_VERSION, VERSION));
    CHECK(puts_now(state, CALUGNID_CMD_VERSION_AGAIN, VERSION));
    for (unsigned line = 0; line < sizeof low; line++) {
        command(state, low[line]);
        CHECK(puts_now(state, CALUGNID_CMD_READ_P1, (uint8_t)(0xFF - (1u << line))));
        command(state, high[line]);
        CHECK(puts_now(state, CALUGNID_CMD_READ_P1, 0xFF));
    }
    command(state, CALUGNID_CMD_WRITE_P1_LOW + 0x5);
    CHECK(puts_now(state, CALUGNID_CMD_READ_P1, 0xF5));
    CHECK(accepted(state, CALUGNID_WRITE_COMMAND, CALUGNID_CMD_P22_LOW).p2 == 0xCB);
    CHECK(accepted(state, CALUGNID_WRITE_COMMAND, CALUGNID_CMD_P23_LOW).p2 == 0xC3);
    CHECK(accepted(state, CALUGNID_WRITE_COMMAND, CALUGNID_CMD_P22_HIGH).p2 == 0xC7);
    CHECK(accepted(state, CALUGNID_WRITE_COMMAND, CALUGNID_CMD_P23_HIGH).p2 == 0xCF);
    command(state, CALUGNID_CMD_ALLOW_P22_P23);
    CHECK(with_data(state, CALUGNID_CMD_WRITE_P2, 0x03).p2 == 0xC3);
    command(state, CALUGNID_CMD_FORBID_P22_P23);
    CHECK(with_data(state, CALUGNID_CMD_WRITE_P2, 0x0F).p2 == 0xC3);
    CHECK(accepted(state, CALUGNID_WRITE_COMMAND, CALUGNID_CMD_WRITE_P21_P23 + 0x9).p2 == 0xC9);
}

/* P20 falls by D1h with nothing pulsed; FEh pulses it and it does not fall. */
static void try_reset(void)
{
    uint8_t state[CALUGNID_STATE_BYTES];
    struct calugnid_answer answer;

    calugnid_start(state, CALUGNID_ORDINARY, 0);
    answer = accepted(state, CALUGNID_WRITE_COMMAND, CALUGNID_CMD_RESET);
    CHECK(answer.pulse == CALUGNID_P2_P20 && (answer.p2 & CALUGNID_P2_P20));
    command(state, CALUGNID_CMD_WRITE_P2);
    answer = accepted(state, CALUGNID_WRITE_DATA, 0xFE);
    CHECK(answer.pulse == 0 && !(answer.p2 & CALUGNID_P2_P20));
}

/* The names of an answer's bytes stand where the indexes say, in a list too. */
static void try_answers(void)
{
    static const uint8_t list[] = {CALUGNID_WRITE_DATA, 0x14, 0, CALUGNID_READ_DATA, 1, 0};
    uint8_t state[CALUGNID_STATE_BYTES], bytes[CALUGNID_ANSWER_BYTES];
    struct calugnid_answer answers[2];

    calugnid_start(state, CALUGNID_ORDINARY, 0);
    CHECK(calugnid_run_state(state, list, sizeof list, calugnid_bytes(answers),
                             sizeof answers) == CALUGNID_ACCEPTED);
    CHECK(answers[0].destination == CALUGNID_TO_KEYBOARD && answers[0].refusal == 0);
    CHECK(answers[0].frame_low == 0x28 && answers[0].frame_high == 0x06);
    CHECK(answers[1].refusal == CALUGNID_BAD_VALUE && answers[1].status == 0x12);
    for (uint8_t i = 0; i < CALUGNID_ANSWER_BYTES; i++)
        bytes[i] = i;
    memcpy(answers, bytes, sizeof bytes);
    CHECK(answers[0].refusal == CALUGNID_ANSWER_REFUSAL && answers[0].read == CALUGNID_ANSWER_READ);
    CHECK(answers[0].old == CALUGNID_ANSWER_OLD && answers[0].status == CALUGNID_ANSWER_STATUS);
    CHECK(answers[0].p2 == CALUGNID_ANSWER_P2 && answers[0].pulse == CALUGNID_ANSWER_PULSE);
    CHECK(answers[0].destination == CALUGNID_ANSWER_DESTINATION);
    CHECK(answers[0].frame_low == CALUGNID_ANSWER_FRAME_LOW);
    CHECK(answers[0].frame_high == CALUGNID_ANSWER_FRAME_HIGH);
}

/* Each refusal and each kind has a text of its own. */
static void try_names(void)
{
    for (uint8_t i = 0; i <= CALUGNID_NEEDS_EDITION_2; i++)
        for (uint8_t j = 0; j < i; j++)
            CHECK(strcmp(calugnid_refusal_name(i), calugnid_refusal_name(j)) != 0);
    for (uint8_t i = 0; i <= CALUGNID_PINS; i++)
        for (uint8_t j = 0; j < i; j++)
            CHECK(strcmp(calugnid_kind_name(i), calugnid_kind_name(j)) != 0);
    CHECK(strcmp(calugnid_refusal_name(CALUGNID_LOCKED), "locked") == 0);
    CHECK(strcmp(calugnid_refusal_name(CALUGNID_NEEDS_EDITION_2 + 1), "no refusal") == 0);
    CHECK(strcmp(calugnid_kind_name(CALUGNID_PINS), "pins") == 0);
    CHECK(strcmp(calugnid_kind_name(CALUGNID_PINS + 1), "no event") == 0);
}

int main(void)
{
    try_library();
    for (int options = 0; options < 256; options++)
        try_fresh((uint8_t)options);
    try_start_up();
    try_lock();
    try_commands();
    try_second_commands();
    try_reset();
    try_answers();
    try_names();
    return failures != 0;
}
