/* A small board: the controller, a keyboard and a mouse with queues of frames,
 * and a host that starts up as a PC's firmware does. The mouse is the library's
 * trackball. Prints what each does. */
#include <stdio.h>
#include <stdlib.h>
#include <string.h>

#include "calugnid.h"

enum { QUEUE_FRAMES = 16, POLLS_MOST = 100 };

struct device {
    const char *name;
    uint8_t kind; /* of the event that brings its frames */
    uint16_t queue[QUEUE_FRAMES];
    size_t count;
};

struct board {
    uint8_t state[CALUGNID_STATE_BYTES];
    uint8_t p2; /* the lines as they are driven now */
    struct device keyboard, mouse;
    uint8_t opened_by; /* the key that opened the lock, until its release */
    uint8_t trackball[CALUGNID_TRACKBALL_BYTES];
    bool moved; /* since the last report was taken */
};

static void fail(const char *why)
{
    printf("failed: %s\n", why);
    exit(1);
}

/* ---- The board's lines. */

static void drive_line(const char *name, uint8_t bit, uint8_t before, uint8_t after)
{
    if ((before ^ after) & bit)
        printf("%-9s %s\n", name, after & bit ? "up" : "down");
}

/* P2 gives levels; an interrupt controller wants to see the changes only. A PC
 * is reset by a pulse of P20, and where D1h lets P20 fall. */
static void drive_lines(struct board *board, const uint8_t *answer)
{
    uint8_t p2 = answer[CALUGNID_ANSWER_P2];

    drive_line("IRQ 1", CALUGNID_P2_KIRQ, board->p2, p2);
    drive_line("IRQ 12", CALUGNID_P2_MIRQ, board->p2, p2);
    drive_line("P20", CALUGNID_P2_P20, board->p2, p2);
    board->p2 = p2;
    if (answer[CALUGNID_ANSWER_PULSE] & CALUGNID_P2_P20)
        printf("%-9s pulsed\n", "reset");
}

static void board_event(struct board *board, uint8_t kind, uint16_t value, uint8_t *answer)
{
    calugnid_event(board->state, kind, value, answer);
    drive_lines(board, answer);
}

static void board_start(struct board *board)
{
    uint8_t lines[CALUGNID_ANSWER_BYTES];

    memset(board, 0, sizeof *board);
    board->keyboard.name = "keyboard";
    board->keyboard.kind = CALUGNID_KEYBOARD_FRAME;
    board->mouse.name = "mouse";
    board->mouse.kind = CALUGNID_MOUSE_FRAME;
    calugnid_start(board->state, CALUGNID_ORDINARY, 0);
    calugnid_lines(board->state, lines);
    board->p2 = lines[CALUGNID_ANSWER_P2];
    calugnid_trackball_start(board->trackball);
}

/* ---- The devices. */

static void device_queue(struct device *device, uint16_t frame)
{
    if (device->count == QUEUE_FRAMES)
        fail("a device's queue is full");
    device->queue[device->count++] = frame;
}

static void device_drop(struct device *device, size_t count)
{
    device->count -= count;
    memmove(device->queue, device->queue + count, device->count * sizeof device->queue[0]);
}

static void keyboard_queue(struct board *board, uint8_t byte)
{
    device_queue(&board->keyboard, calugnid_frame(byte));
}

/* What a call of the trackball handed out. */
static void mouse_queue(struct board *board, const uint16_t *frames, size_t count)
{
    for (size_t i = 0; i < count; i++)
        device_queue(&board->mouse, frames[i]);
}

/* FFh resets: the keyboard acknowledges and reports that it works. Any other
 * command is acknowledged. */
static void keyboard_answers(struct board *board, uint8_t command)
{
    keyboard_queue(board, 0xFA);
    if (command == 0xFF)
        keyboard_queue(board, 0xAA);
}

static void mouse_answers(struct board *board, uint8_t command)
{
    uint16_t frames[CALUGNID_TRACKBALL_FRAMES];
    size_t count = calugnid_trackball_send(board->trackball, command, frames);

    mouse_queue(board, frames, count);
}

/* A real mouse reports when it was moved, and not before all that it had to send
 * is sent: until then it adds the moves up. So the board takes a report then. With
 * reporting off there are no frames, and the movement stays for a later packet. */
static void mouse_reports(struct board *board)
{
    uint16_t frames[CALUGNID_TRACKBALL_FRAMES];
    size_t count;

    if (!board->moved || board->mouse.count != 0)
        return;
    count = calugnid_trackball_report(board->trackball, frames);
    printf("%-9s takes a report of %d frames\n", "board", (int)count);
    mouse_queue(board, frames, count);
    board->moved = false;
}

/* A device takes the byte sent to it. False where nothing is being sent. */
static bool device_takes(struct board *board)
{
    uint8_t answer[CALUGNID_ANSWER_BYTES];
    uint8_t byte = calugnid_sent_byte(board->state);
    struct device *device;

    calugnid_lines(board->state, answer);
    if (answer[CALUGNID_ANSWER_DESTINATION] == CALUGNID_TO_NOBODY)
        return false;
    device = answer[CALUGNID_ANSWER_DESTINATION] == CALUGNID_TO_KEYBOARD ? &board->keyboard
                                                                         : &board->mouse;
    printf("%-9s takes %02X\n", device->name, byte);
    board_event(board, CALUGNID_BYTE_TAKEN, 0, answer);
    if (device == &board->keyboard)
        keyboard_answers(board, byte);
    else
        mouse_answers(board, byte);
    return true;
}

/* The break code of the key that opened the lock would tell the host the last
 * byte of the code, so the board keeps that release back. */
static void keep_release_back(struct board *board)
{
    struct device *keyboard = &board->keyboard;

    if (board->opened_by == 0 || keyboard->count < 2)
        return;
    if (keyboard->queue[0] != calugnid_frame(0xF0) ||
        keyboard->queue[1] != calugnid_frame(board->opened_by))
        return;
    printf("%-9s keeps the release of %02X back\n", "board", board->opened_by);
    device_drop(keyboard, 2);
    board->opened_by = 0;
}

/* A device sends its next byte, or holds it while the frame would be refused:
 * refusal 5 goes once the host has read and nothing is being sent. */
static void device_sends(struct board *board, struct device *device)
{
    uint8_t answer[CALUGNID_ANSWER_BYTES];
    bool locked = calugnid_locked(board->state);
    uint16_t frame;
    uint8_t byte;

    if (device->count == 0)
        return;
    frame = device->queue[0];
    byte = (uint8_t)calugnid_judge(frame); /* it is sound */
    if (!calugnid_ready(board->state, device->kind)) {
        printf("%-9s holds %02X, refusal %d\n", device->name, byte,
               calugnid_refusal(board->state, device->kind, frame));
        return;
    }
    printf("%-9s sends %02X\n", device->name, byte);
    device_drop(device, 1);
    board_event(board, device->kind, frame, answer);
    if (locked && !calugnid_locked(board->state))
        board->opened_by = byte;
}

/* What the devices do in a short time: take a byte, or else send one each. */
static void devices_turn(struct board *board)
{
    if (device_takes(board))
        return;
    keep_release_back(board);
    mouse_reports(board);
    device_sends(board, &board->keyboard);
    device_sends(board, &board->mouse);
}

static void press(struct board *board, uint8_t key)
{
    keyboard_queue(board, key);
}

static void release(struct board *board, uint8_t key)
{
    keyboard_queue(board, 0xF0);
    keyboard_queue(board, key);
}

/* The buttons have the same bits in a move and in a packet. */
static void print_movement(const char *who, const char *does, int x, int y, uint8_t buttons)
{
    printf("%-9s %s x %d, y %d, buttons %c%c%c\n", who, does, x, y,
           buttons & CALUGNID_PACKET_LEFT ? 'L' : '-',
           buttons & CALUGNID_PACKET_RIGHT ? 'R' : '-',
           buttons & CALUGNID_PACKET_MIDDLE ? 'M' : '-');
}

static void move(struct board *board, uint8_t buttons, int16_t x, int16_t y)
{
    print_movement("user", "moves", x, y, buttons);
    calugnid_trackball_move(board->trackball, buttons, x, y);
    board->moved = true;
}

/* ---- The host's accesses. The devices go on while it polls the status. */

/* Waits until the host can read a byte, or until a write would be taken:
 * refusal 3 goes once IBF is 0. */
static void host_wait(struct board *board, uint8_t kind)
{
    bool reads = kind == CALUGNID_READ_DATA;
    uint8_t bit = reads ? CALUGNID_STATUS_OBF : CALUGNID_STATUS_IBF;

    for (int polls = 0; polls < POLLS_MOST; polls++) {
        bool ready = ((calugnid_status(board->state) & bit) != 0) == reads;

        if (!ready && reads)
            printf("%-9s waits, OBF is 0\n", "host");
        else if (!ready)
            printf("%-9s waits, IBF is 1, refusal %d\n", "host",
                   calugnid_refusal(board->state, kind, 0));
        devices_turn(board);
        if (ready)
            return;
    }
    fail("the host waited for too long");
}

static uint8_t host_write(struct board *board, uint8_t kind, uint8_t byte)
{
    uint8_t answer[CALUGNID_ANSWER_BYTES];

    host_wait(board, kind);
    printf("%-9s %s <- %02X\n", "host", kind == CALUGNID_WRITE_DATA ? "60h" : "64h", byte);
    board_event(board, kind, byte, answer);
    return answer[CALUGNID_ANSWER_REFUSAL];
}

static uint8_t host_read(struct board *board)
{
    uint8_t answer[CALUGNID_ANSWER_BYTES];

    host_wait(board, CALUGNID_READ_DATA);
    calugnid_event(board->state, CALUGNID_READ_DATA, 0, answer);
    printf("%-9s 60h -> %02X\n", "host", answer[CALUGNID_ANSWER_READ]);
    drive_lines(board, answer);
    return answer[CALUGNID_ANSWER_READ];
}

static void host_command(struct board *board, uint8_t byte)
{
    if (host_write(board, CALUGNID_WRITE_COMMAND, byte) != CALUGNID_ACCEPTED)
        fail("a command was refused");
}

static void host_data(struct board *board, uint8_t byte)
{
    if (host_write(board, CALUGNID_WRITE_DATA, byte) != CALUGNID_ACCEPTED)
        fail("a data byte was refused");
}

/* A byte for a device, which has to take it before the next write. */
static void host_send(struct board *board, uint8_t byte)
{
    host_data(board, byte);
    host_wait(board, CALUGNID_WRITE_DATA);
}

static void host_expect(struct board *board, uint8_t byte)
{
    if (host_read(board) != byte)
        fail("the host read another byte than it expected");
}

/* A byte for the mouse, which acknowledges it. */
static void host_send_mouse(struct board *board, uint8_t byte)
{
    host_command(board, CALUGNID_CMD_SEND_TO_MOUSE);
    host_send(board, byte);
    host_expect(board, 0xFA);
}

/* Nine bits in two's complement: the sign stands in a packet's first byte. */
static int movement(uint8_t low, bool negative)
{
    return negative ? low - 256 : low;
}

static void host_packet(struct board *board)
{
    uint8_t first = host_read(board);
    int x = movement(host_read(board), first & CALUGNID_PACKET_X_SIGN);
    int y = movement(host_read(board), first & CALUGNID_PACKET_Y_SIGN);

    print_movement("host", "decodes", x, y, first);
    if (first & CALUGNID_PACKET_X_OVERFLOW)
        printf("%-9s x overflow\n", "host");
    if (first & CALUGNID_PACKET_Y_OVERFLOW)
        printf("%-9s y overflow\n", "host");
}

/* ---- The host's program. */

/* Both devices off, so that no byte of theirs comes among the answers. */
static void test_controller(struct board *board)
{
    printf("-- tests\n");
    host_command(board, CALUGNID_CMD_KEYBOARD_OFF);
    host_command(board, CALUGNID_CMD_MOUSE_OFF);
    host_command(board, CALUGNID_CMD_SELF_TEST);
    host_expect(board, 0x55);
    host_command(board, CALUGNID_CMD_TEST_KEYBOARD);
    host_expect(board, 0x00);
    host_command(board, CALUGNID_CMD_TEST_MOUSE);
    host_expect(board, 0x00);
}

/* The self-test left both devices and translation on; this adds interrupts. */
static void set_command_byte(struct board *board)
{
    printf("-- command byte\n");
    host_command(board, CALUGNID_CMD_READ_MODE);
    host_expect(board, CALUGNID_MODE_TRANSLATE | CALUGNID_MODE_SYS);
    host_command(board, CALUGNID_CMD_WRITE_MODE);
    host_data(board, CALUGNID_MODE_TRANSLATE | CALUGNID_MODE_SYS | CALUGNID_MODE_EKI |
                         CALUGNID_MODE_EMI);
}

static void reset_keyboard(struct board *board)
{
    printf("-- keyboard reset\n");
    host_send(board, 0xFF);
    host_expect(board, 0xFA);
    host_expect(board, 0xAA);
}

static void start_mouse(struct board *board)
{
    printf("-- mouse reset, identified and enabled\n");
    host_send_mouse(board, CALUGNID_TRACKBALL_RESET);
    host_expect(board, 0xAA);
    host_expect(board, 0x00);
    host_send_mouse(board, CALUGNID_TRACKBALL_IDENTIFY);
    host_expect(board, 0x00);
    host_send_mouse(board, CALUGNID_TRACKBALL_ENABLE);
}

/* Key 1Ch of set 2 is 1Eh of set 1; its release is F0h 1Ch, read as 9Eh. */
static void type_key(struct board *board)
{
    printf("-- a key\n");
    press(board, 0x1C);
    release(board, 0x1C);
    host_expect(board, 0x1E);
    host_expect(board, 0x9E);
}

static void move_mouse(struct board *board)
{
    printf("-- a move\n");
    move(board, CALUGNID_PACKET_LEFT, 12, -5);
    host_packet(board);
}

/* The second packet has both moves, whose x together is beyond nine bits. */
static void move_during_packet(struct board *board)
{
    printf("-- two moves while a packet is being sent\n");
    move(board, 0, -200, 30);
    devices_turn(board);
    move(board, 0, -150, 3);
    move(board, CALUGNID_PACKET_RIGHT, -150, 4);
    host_packet(board);
    host_packet(board);
}

/* With reporting off the mouse sends a packet only when it is asked for one. */
static void ask_for_packet(struct board *board)
{
    printf("-- mouse disabled, a packet asked for\n");
    host_send_mouse(board, CALUGNID_TRACKBALL_DISABLE);
    move(board, CALUGNID_PACKET_MIDDLE, 3, 4);
    host_send_mouse(board, CALUGNID_TRACKBALL_READ_PACKET);
    host_packet(board);
}

/* The code 1Eh 30h, and the bytes that tell of the lock closed and opened. */
static void load_code(struct board *board)
{
    printf("-- lock code\n");
    host_command(board, CALUGNID_CMD_WRITE_CELL + 0x13);
    host_data(board, 0xC3);
    host_command(board, CALUGNID_CMD_WRITE_CELL + 0x14);
    host_data(board, 0xC4);
    host_command(board, CALUGNID_CMD_LOAD_CODE);
    host_data(board, 0x1E);
    host_data(board, 0x30);
    host_data(board, 0x00);
}

static void type_at_lock(struct board *board, uint8_t key)
{
    press(board, key);
    release(board, key);
    for (int turns = 0; turns < 3; turns++)
        devices_turn(board);
}

static void close_and_open(struct board *board)
{
    printf("-- locked\n");
    host_command(board, CALUGNID_CMD_LOCK);
    host_expect(board, 0xC3);
    printf("%-9s refused by %d\n", "board",
           host_write(board, CALUGNID_WRITE_COMMAND, CALUGNID_CMD_READ_MODE));
    printf("-- a wrong second key\n");
    type_at_lock(board, 0x1C);
    type_at_lock(board, 0x21);
    printf("-- the right keys\n");
    type_at_lock(board, 0x1C);
    type_at_lock(board, 0x32);
    host_expect(board, 0xC4);
    printf("-- open\n");
    host_command(board, CALUGNID_CMD_ASK_CODE);
    host_expect(board, 0xFA);
}

int main(void)
{
    struct board board;

    if (!calugnid_fits())
        fail("the library is not this header's");
    board_start(&board);
    test_controller(&board);
    set_command_byte(&board);
    reset_keyboard(&board);
    start_mouse(&board);
    type_key(&board);
    move_mouse(&board);
    move_during_packet(&board);
    ask_for_packet(&board);
    load_code(&board);
    close_and_open(&board);
    host_command(&board, CALUGNID_CMD_RESET);
    return 0;
}
