/* The 8042 keyboard controller model of the frost panel, for C and C++.
 *
 * Link crates/calugnid/out/libcalugnid.a, which `rt lib` in crates/calugnid
 * builds with the Rattle toolchain rattle-kit-13f. It is for x86-64 Linux,
 * asks a C library for memcpy and memset at most, and uses the vector
 * registers that every x86-64 processor has (xmm, SSE2): code that must leave
 * these alone, as a kernel's often must, cannot call it. The data sheet,
 * docs/DATASHEET.md, has every rule in tables.
 *
 * A controller is a state of CALUGNID_STATE_BYTES bytes that the caller keeps
 * and lends to each call. The library has no memory of its own, allocates
 * nothing and prints nothing. Make a state by calugnid_start or calugnid_load
 * and change it by calls only. On any other 321 bytes a call still ends, stays
 * inside what it is lent and gives the answers of the machine that the bytes
 * stand for (data sheet, "State and image"). If they break a body rule, these
 * need not be a controller's, and bits that stand for nothing are left open.
 *
 * The settings are the options, the version byte and the key table. They are
 * chosen at the start and kept in the state, and no event changes them. A save
 * writes an image of edition 2, which holds the options and what they add to
 * the state. The version byte and the key table are in no image: a load is
 * given them again. With those of the save the state loaded is the state saved,
 * byte for byte. Images of edition 1, which versions 1 and 2 of this library
 * saved, have no room for options: a load gives them none, so PS/2 mode, the
 * first command set and no mouse lock.
 *
 * A caller of version 2 has to know this:
 * - A save needs 72 bytes, CALUGNID_IMAGE_BYTES.
 * - calugnid_load and calugnid_run_image take a version byte. Where nobody asks
 *   for it, give 0, as version 2 did.
 * - A load gives the options that were saved; version 2 gave none.
 * - Images of edition 1, 68 bytes, still load, to the same state as before.
 *   They can be moved to edition 2, and back.
 *
 * A fresh controller, as a start leaves it, is one after power-on:
 * - Both devices are off, so the first key is refused by 5. AEh switches the
 *   keyboard on, A8h the mouse, and the self-test AAh both. A byte sent to the
 *   keyboard switches it on too.
 * - Keys are translated from scan code set 2 to set 1. Interrupts are off.
 * - P1 is FFh: every pin is 1, and the key switch is not turned.
 * - The output buffer is empty, nothing is being sent, there is no lock code.
 * The status is 10h, and P2 is 4Bh, in AT mode CFh.
 *
 * A start-up. Each line is an event, its value, and what comes of it:
 *   CALUGNID_WRITE_COMMAND   CALUGNID_CMD_SELF_TEST   both devices on
 *   CALUGNID_READ_DATA       0                        reads 55h
 *   CALUGNID_WRITE_COMMAND   CALUGNID_CMD_WRITE_MODE
 *   CALUGNID_WRITE_DATA      0x47                     both interrupts on
 *   CALUGNID_KEYBOARD_FRAME  calugnid_frame(0x1C)     key A: IRQ 1 rises
 *   CALUGNID_READ_DATA       0                        reads 1Eh, A in set 1
 *
 * A lock code is loaded by A5h (CALUGNID_CMD_LOAD_CODE), then its bytes, 1 to
 * 16 and none of them 00h, written to port 60h, then 00h. They are codes of set
 * 1: 1Eh 30h is typed with the keys A and B. A command before 00h, or a 17th
 * byte, leaves no code. A6h (CALUGNID_CMD_LOCK) then locks: until the code has
 * been typed, keys are not shown to the host and writes are refused by 4. In AT
 * mode and with the second command set no command loads a lock code or locks.
 *
 * What a caller owes:
 * - Pointers to valid memory of the size named, not null even where a length
 *   is 0. Bytes need no alignment; numbers of sixteen bits have that of C.
 * - No two arguments of a call overlap where one of them is written. So a load
 *   cannot be given the key table that stands in its own state: copy it first.
 * - One thread at a time for each state and each trackball.
 * - A header and an archive that belong together: calugnid_fits tells.
 * Everything else may be anything: a call that cannot do its work hands back
 * the number of the check that refuses it, and changes nothing.
 *
 * Advice for a board:
 * - P2 gives levels. After each event compare its bits with those of the
 *   answer before, and drive an interrupt line only when its bit changed.
 * - A PC is reset by a pulse of P20, and as well when bit 0 of P2 falls, which
 *   D1h and a data byte can do.
 * - A host polls the status a thousand times for each byte. Answer it with
 *   calugnid_status, not with an event: a read of port 64h changes nothing.
 * - The byte read stands in the answer to the read. Take it before the next
 *   frame is fed: each event writes all nine bytes.
 * - A device keeps its frame until calugnid_ready says that it would be taken.
 *   In AT mode no frame of the mouse ever is.
 * - A device's reply does not overtake a byte that the host has not read. So a
 *   driver that waits for FAh may read a key first.
 * - A load gives the options of the image, whatever those of the state were,
 *   and no call changes the settings of a running controller. A board that is
 *   built for one mode asks calugnid_options after a load.
 * - What keeps an image keeps the version byte and the key table beside it.
 * - A frame that mouse lock keeps back is lost: the refusal is 0, so the mouse
 *   does not send it again. This holds for replies of the mouse too.
 * - A frame with a wrong start bit is noise. Feed it or drop it: the event
 *   changes nothing, refused or not, and the host sees nothing of it.
 * - A lock closed by A6h opens as soon as the keys counted end with the lock
 *   code, whatever was typed before. A keyboard frame that is broken or has
 *   wrong parity starts the count again.
 * - The key that opened the lock is released after that, and the host reads
 *   its break code: the last byte of the lock code with bit 7 set. A board that
 *   must hide this keeps that release back, as examples/board.c does.
 */
#ifndef CALUGNID_H
#define CALUGNID_H

#include <stdbool.h>
#include <stddef.h>
#include <stdint.h>

#ifdef __cplusplus
extern "C" {
#endif

/* The version of this header and of the library that belongs to it. It goes up
 * with each change of a call, a size or a rule. */
#define CALUGNID_VERSION 3

/* On calls whose result can be a refusal: gcc and clang warn where it is not
 * looked at. */
#if defined(__GNUC__)
#define CALUGNID_WARN_UNUSED __attribute__((warn_unused_result))
#else
#define CALUGNID_WARN_UNUSED
#endif

/* Sizes in bytes, and a place in a state. */
enum {
    CALUGNID_STATE_BYTES = 321,
    CALUGNID_TABLE_BYTES = 256, /* a key table, an entry for each byte */
    CALUGNID_STATE_TABLE = 65,  /* where the key table stands in a state */
    CALUGNID_IMAGE_BYTES = 72,  /* what a save writes: an image of edition 2 */
    CALUGNID_EDITION_1_BYTES = 68, /* an image of edition 1 */
    CALUGNID_EVENT_BYTES = 3,   /* in a list: kind, value low, value high */
    CALUGNID_ANSWER_BYTES = 9,
    CALUGNID_LIST_MOST = 21000, /* the longest list */
    CALUGNID_TRACKBALL_BYTES = 6,
    CALUGNID_TRACKBALL_FRAMES = 4 /* the most that one call hands out */
};

/* Settings: the bits of `options`. The data sheet, "Start settings", says what
 * each changes. Bits without a name here are not looked at; a caller leaves
 * them 0, since later versions of the library may use them. With the first
 * command set the version byte is kept in the state and never shows. */
enum {
    CALUGNID_ORDINARY = 0,      /* none of the settings below */
    CALUGNID_MOUSE_LOCK = 0x01, /* the key switch keeps the mouse back too */
    CALUGNID_PC_AT = 0x02,      /* AT mode, else PS/2 mode */
    CALUGNID_SECOND_SET = 0x04  /* the VT82C42's commands, else the first set */
};

/* Kinds of events, and the largest value that each takes. */
enum {
    CALUGNID_READ_DATA = 0,      /* the host reads port 60h; 0 */
    CALUGNID_WRITE_DATA = 1,     /* the host writes port 60h; FFh */
    CALUGNID_READ_STATUS = 2,    /* the host reads port 64h; 0 */
    CALUGNID_WRITE_COMMAND = 3,  /* the host writes port 64h; FFh */
    CALUGNID_KEYBOARD_FRAME = 4, /* a frame from the keyboard; 7FFh */
    CALUGNID_MOUSE_FRAME = 5,    /* a frame from the mouse; 7FFh */
    CALUGNID_BYTE_TAKEN = 6,     /* the device took the byte sent to it; 0 */
    CALUGNID_BYTE_TIMED_OUT = 7, /* the device did not; 0 */
    CALUGNID_PINS = 8            /* the input port P1; FFh */
};

/* Commands: the values of CALUGNID_WRITE_COMMAND. To put a byte is to place it
 * in the output buffer for the host; "data" is the next byte written to port
 * 60h. Those marked * do nothing in AT mode, those marked 1 do nothing with the
 * second command set. Bytes without a name do nothing. */
enum {
    CALUGNID_CMD_READ_MODE = 0x20,      /* puts the command byte, RAM cell 0 */
    CALUGNID_CMD_READ_CELL = 0x20,      /* plus 00h-1Fh: puts that RAM cell */
    CALUGNID_CMD_WRITE_MODE = 0x60,     /* data becomes the command byte */
    CALUGNID_CMD_WRITE_CELL = 0x60,     /* plus 01h-1Fh: data to that cell */
    CALUGNID_CMD_ASK_CODE = 0xA4,       /* * puts FAh, or F1h: no lock code */
    CALUGNID_CMD_LOAD_CODE = 0xA5,      /* * 1 data up to 00h is a lock code */
    CALUGNID_CMD_LOCK = 0xA6,           /* * 1 locks if there is a lock code */
    CALUGNID_CMD_MOUSE_OFF = 0xA7,      /* * switches the mouse off */
    CALUGNID_CMD_MOUSE_ON = 0xA8,       /* * switches the mouse on */
    CALUGNID_CMD_TEST_MOUSE = 0xA9,     /* * puts 00h: its line is well */
    CALUGNID_CMD_SELF_TEST = 0xAA,      /* puts 55h; both devices on, SYS 1 */
    CALUGNID_CMD_TEST_KEYBOARD = 0xAB,  /* puts 00h: its line is well */
    CALUGNID_CMD_KEYBOARD_OFF = 0xAD,   /* switches the keyboard off */
    CALUGNID_CMD_KEYBOARD_ON = 0xAE,    /* switches the keyboard on */
    CALUGNID_CMD_READ_P1 = 0xC0,        /* puts the input port P1 */
    CALUGNID_CMD_POLL_P1_LOW = 0xC1,    /* * P10-P13 in status bits 4-7 */
    CALUGNID_CMD_POLL_P1_HIGH = 0xC2,   /* * P14-P17 in status bits 4-7 */
    CALUGNID_CMD_READ_P2 = 0xD0,        /* puts the output port P2 */
    CALUGNID_CMD_WRITE_P2 = 0xD1,       /* data to the latches of P2 */
    CALUGNID_CMD_PUT_DATA = 0xD2,       /* * data is put */
    CALUGNID_CMD_PUT_AS_MOUSE = 0xD3,   /* * data is put as the mouse's */
    CALUGNID_CMD_SEND_TO_MOUSE = 0xD4,  /* * data is sent to the mouse */
    CALUGNID_CMD_READ_INPUTS = 0xE0,    /* puts the test inputs */
    CALUGNID_CMD_PULSE = 0xF0,          /* plus bits 0-3: pulses lines of P2
                                           whose bit is 0; but 2 and 3 only in
                                           AT mode */
    CALUGNID_CMD_RESET = 0xFE           /* pulses P20, a PC's reset */
};

/* Those that the second command set has besides. Latches are those of P1 and
 * P2; "low" writes 0 to one, "high" 1. */
enum {
    CALUGNID_CMD_WRITE_P1_LOW = 0x90,   /* plus bits 0-3: to P10-P13 */
    CALUGNID_CMD_READ_VERSION = 0xA1,   /* puts the version byte */
    CALUGNID_CMD_VERSION_AGAIN = 0xAF,  /* the same */
    CALUGNID_CMD_P10_LOW = 0xB0,        /* P10 low */
    CALUGNID_CMD_P11_LOW = 0xB1,        /* P11 low */
    CALUGNID_CMD_P12_LOW = 0xB2,        /* P12 low */
    CALUGNID_CMD_P13_LOW = 0xB3,        /* P13 low */
    CALUGNID_CMD_P22_LOW = 0xB4,        /* P22 low */
    CALUGNID_CMD_P23_LOW = 0xB5,        /* P23 low */
    CALUGNID_CMD_P14_LOW = 0xB6,        /* P14 low */
    CALUGNID_CMD_P15_LOW = 0xB7,        /* P15 low */
    CALUGNID_CMD_P10_HIGH = 0xB8,       /* P10 high */
    CALUGNID_CMD_P11_HIGH = 0xB9,       /* P11 high */
    CALUGNID_CMD_P12_HIGH = 0xBA,       /* P12 high */
    CALUGNID_CMD_P13_HIGH = 0xBB,       /* P13 high */
    CALUGNID_CMD_P22_HIGH = 0xBC,       /* P22 high */
    CALUGNID_CMD_P23_HIGH = 0xBD,       /* P23 high */
    CALUGNID_CMD_P14_HIGH = 0xBE,       /* P14 high */
    CALUGNID_CMD_P15_HIGH = 0xBF,       /* P15 high */
    CALUGNID_CMD_ALLOW_P22_P23 = 0xC8,  /* D1h may write P22 and P23 */
    CALUGNID_CMD_FORBID_P22_P23 = 0xC9, /* D1h may not, as after a start */
    CALUGNID_CMD_WHICH_MODE = 0xCA,     /* puts 01h, in AT mode 00h */
    CALUGNID_CMD_WRITE_P21_P23 = 0xE0   /* plus 1-15: its bits 1-3 to P21-P23 */
};

/* Bits of the command byte, RAM cell 0. Bit 7 is always 0. */
enum {
    CALUGNID_MODE_EKI = 0x01,          /* the keyboard's interrupt enabled */
    CALUGNID_MODE_EMI = 0x02,          /* the mouse's interrupt enabled */
    CALUGNID_MODE_SYS = 0x04,          /* shown in the status */
    CALUGNID_MODE_OVERRIDE = 0x08,     /* the key switch does not stop keys */
    CALUGNID_MODE_KEYBOARD_OFF = 0x10, /* its frames are refused by 5 */
    CALUGNID_MODE_MOUSE_OFF = 0x20,    /* its frames are refused by 5 */
    CALUGNID_MODE_TRANSLATE = 0x40     /* keys from scan code set 2 to set 1 */
};

/* Refusals: 1-6 and 12 of an event, 7-11 and 13-16 of a whole call. The number
 * is that of the first check that refuses, and these are the orders:
 *   an event                           1, 2, 12, 3, 4, 5, 6
 *   a start or a run with a key table  13, 14, 15, 7, 8
 *   a load                             10, 11, 13, 14, 15
 *   load, run and save in one call     7, 8, 9, 10, 11, 13, 14, 15
 *   a move to edition 2                10, 11, 9
 *   a move to edition 1                10, 11, 16, 9
 * A call without a key table makes no check of 13-15. */
enum {
    CALUGNID_ACCEPTED = 0,
    CALUGNID_BAD_KIND = 1,
    CALUGNID_BAD_VALUE = 2,     /* above the largest for its kind */
    CALUGNID_SENDING = 3,       /* a write while a byte is being sent (IBF) */
    CALUGNID_LOCKED = 4,        /* a write while locked */
    CALUGNID_NOT_READY = 5,     /* a frame; device off, OBF 1 or IBF 1 */
    CALUGNID_NOT_SENDING = 6,   /* taken or timed out with nothing being sent */
    CALUGNID_BAD_LIST = 7,      /* length no multiple of 3, or above 21,000 */
    CALUGNID_NO_ROOM = 8,       /* under 9 answer bytes an event */
    CALUGNID_NO_SAVE_ROOM = 9,  /* under 72 bytes to save or to move to; under
                                   68 to move to edition 1 */
    CALUGNID_BAD_IMAGE = 10,    /* too short, or its trailer is wrong; in a
                                   move also an image of the other edition */
    CALUGNID_BAD_BODY = 11,     /* a body rule broken */
    CALUGNID_NO_MOUSE = 12,     /* a mouse frame in AT mode */
    CALUGNID_BAD_TABLE = 13,    /* a key table whose length is not 256 */
    CALUGNID_BAD_KEYS = 14,     /* entries 01h-7Fh: not each of 01h-7Fh once */
    CALUGNID_BAD_FIXED = 15,    /* entry 00h not FFh, or E0h, E1h, EEh, F0h, FAh
                                   or FEh not itself */
    CALUGNID_NEEDS_EDITION_2 = 16 /* a move to edition 1 of one with options */
};

/* Where each of the nine answer bytes stands. Those from the status on, the
 * pulse apart, are the lines as they are after the event. */
enum {
    CALUGNID_ANSWER_REFUSAL = 0,
    CALUGNID_ANSWER_READ = 1,        /* the byte that the host reads, else 0 */
    CALUGNID_ANSWER_OLD = 2,         /* 1 where the buffer read was empty */
    CALUGNID_ANSWER_STATUS = 3,
    CALUGNID_ANSWER_P2 = 4,
    CALUGNID_ANSWER_PULSE = 5,       /* the bits of P2 that are pulsed */
    CALUGNID_ANSWER_DESTINATION = 6,
    CALUGNID_ANSWER_FRAME_LOW = 7,   /* the frame being sent, else 0 */
    CALUGNID_ANSWER_FRAME_HIGH = 8
};

/* The same nine bytes by name. There is no padding. */
struct calugnid_answer {
    uint8_t refusal, read, old, status, p2, pulse;
    uint8_t destination, frame_low, frame_high;
};

#if defined(__cplusplus) && __cplusplus >= 201103L
static_assert(sizeof(struct calugnid_answer) == CALUGNID_ANSWER_BYTES,
              "an answer is nine bytes");
#elif defined(__STDC_VERSION__) && __STDC_VERSION__ >= 201112L
_Static_assert(sizeof(struct calugnid_answer) == CALUGNID_ANSWER_BYTES,
               "an answer is nine bytes");
#endif

/* Answers as the bytes that a call writes:
 *     struct calugnid_answer answer;
 *     calugnid_event(state, kind, value, calugnid_bytes(&answer)); */
static inline uint8_t *calugnid_bytes(struct calugnid_answer *answers)
{
    return (uint8_t *)answers;
}

/* Status bits. Commands C1h and C2h show lines of P1 in place of the upper four
 * until the next command; with the second command set in place of bits 5-7. */
enum {
    CALUGNID_STATUS_OBF = 0x01,    /* output buffer full */
    CALUGNID_STATUS_IBF = 0x02,    /* input buffer full: a byte is being sent */
    CALUGNID_STATUS_SYS = 0x04,    /* system flag, of the command byte */
    CALUGNID_STATUS_C = 0x08,      /* the last write was to port 64h */
    CALUGNID_STATUS_SWITCH = 0x10, /* pin 7 of P1, key switch; 0 when turned */
    CALUGNID_STATUS_MOUSE = 0x20,  /* the unread byte is the mouse's */
    CALUGNID_STATUS_TERR = 0x40,   /* framing error, or a byte timed out */
    CALUGNID_STATUS_PERR = 0x80    /* parity error */
};

/* Those that differ in AT mode. */
enum {
    CALUGNID_PC_AT_STATUS_TTIM = 0x20, /* transmit time-out: a byte timed out */
    CALUGNID_PC_AT_STATUS_RTIM = 0x40  /* receive time-out: framing error */
};

/* Bits of the output port P2. */
enum {
    CALUGNID_P2_P20 = 0x01,         /* a PC's reset, active when it is 0 */
    CALUGNID_P2_P21 = 0x02,         /* the A20 gate on a PC */
    CALUGNID_P2_MOUSE_OFF = 0x08,
    CALUGNID_P2_KIRQ = 0x10,        /* keyboard interrupt, IRQ 1 */
    CALUGNID_P2_MIRQ = 0x20,        /* mouse interrupt, IRQ 12 */
    CALUGNID_P2_KEYBOARD_OFF = 0x40
};

/* Those that differ in AT mode, where bit 4 is 1 with any unread byte while the
 * keyboard interrupt is enabled. */
enum {
    CALUGNID_PC_AT_P2_P22 = 0x04, /* speed select; a latch, as the next two */
    CALUGNID_PC_AT_P2_P23 = 0x08, /* shadow RAM */
    CALUGNID_PC_AT_P2_P25 = 0x20,
    CALUGNID_PC_AT_P2_P27 = 0x80  /* always 1 */
};

/* Destinations of the byte being sent. */
enum {
    CALUGNID_TO_NOBODY = 0,
    CALUGNID_TO_KEYBOARD = 1,
    CALUGNID_TO_MOUSE = 2
};

/* Bytes that a host sends to the trackball: CALUGNID_CMD_SEND_TO_MOUSE, then
 * one of these to port 60h. Any other gives FEh, and none takes an argument. */
enum {
    CALUGNID_TRACKBALL_READ_PACKET = 0xEB, /* gives FAh and a packet */
    CALUGNID_TRACKBALL_IDENTIFY = 0xF2,    /* gives FAh 00h */
    CALUGNID_TRACKBALL_ENABLE = 0xF4,      /* reporting on; gives FAh */
    CALUGNID_TRACKBALL_DISABLE = 0xF5,     /* reporting off; gives FAh */
    CALUGNID_TRACKBALL_RESET = 0xFF        /* reporting off, sums and overflows
                                              0, buttons as they were; gives
                                              FAh AAh 00h */
};

/* Bits of a packet's first byte. The low bytes of x and of y follow it. */
enum {
    CALUGNID_PACKET_LEFT = 0x01,       /* buttons, as the last move had them */
    CALUGNID_PACKET_RIGHT = 0x02,
    CALUGNID_PACKET_MIDDLE = 0x04,
    CALUGNID_PACKET_ONE = 0x08,        /* always 1 */
    CALUGNID_PACKET_X_SIGN = 0x10,     /* x is negative */
    CALUGNID_PACKET_Y_SIGN = 0x20,
    CALUGNID_PACKET_X_OVERFLOW = 0x40, /* x stopped at -256 or 255 */
    CALUGNID_PACKET_Y_OVERFLOW = 0x80
};

/* Results of calugnid_judge past the bytes, and bits of calugnid_translate. */
enum {
    CALUGNID_PARITY_ERROR = 0x100,
    CALUGNID_FRAMING_ERROR = 0x101, /* stop bit wrong */
    CALUGNID_NOISE = 0x102,         /* start bit wrong */
    CALUGNID_YIELDS = 0x100,
    CALUGNID_BREAK_FLAG = 0x200
};

/* ---- Which library this is. */

/* CALUGNID_VERSION of the library that is linked. */
uint32_t calugnid_library_version(void);

/* The bytes of a state in the library that is linked. */
size_t calugnid_state_bytes(void);

/* Whether header and library belong together. If not, a call may write past
 * the end of a state: ask once before the first start. */
static inline bool calugnid_fits(void)
{
    return calugnid_library_version() == CALUGNID_VERSION &&
           calugnid_state_bytes() == CALUGNID_STATE_BYTES;
}

/* ---- A controller that a board keeps: `state` is 321 bytes, `answer` is 9. */

/* Makes a fresh controller with the settings that `options` names, with this
 * version byte and the built-in key table. */
void calugnid_start(uint8_t *state, uint8_t options, uint8_t version);

/* The same with a key table of the caller's, which is copied into the state: a
 * keyboard byte of scan code set 2, except the break prefix F0h, is translated
 * to its entry, a code of set 1. Returns 0, 13, 14 or 15. If refused, the state
 * and its table are unchanged. */
CALUGNID_WARN_UNUSED
uint8_t calugnid_start_with_table(uint8_t *state, uint8_t options,
                                  uint8_t version, const uint8_t *table,
                                  size_t table_length);

/* One event. A refused event leaves the state as it was, and its answer holds
 * the refusal and the unchanged lines. */
void calugnid_event(uint8_t *state, uint8_t kind, uint16_t value,
                    uint8_t *answer);

/* A list of events, three bytes each; nine bytes written for each. Bytes past
 * the last answer stay. 0, 7 or 8; refused, nothing changes. */
CALUGNID_WARN_UNUSED
uint8_t calugnid_run_state(uint8_t *state,
                           const uint8_t *list, size_t list_length,
                           uint8_t *answers, size_t answers_length);

/* Runs a list of any length, as far as the answers have room: a third of
 * `list_length` or a ninth of `answers_length` events, whichever is fewer. That
 * number is written to `*count`. 0, or 7 for a length that is no multiple of 3;
 * refused, nothing changes. */
CALUGNID_WARN_UNUSED
uint8_t calugnid_run_fitting(uint8_t *state,
                             const uint8_t *list, size_t list_length,
                             uint8_t *answers, size_t answers_length,
                             size_t *count);

/* Saves to the first 72 bytes, as an image of edition 2: the state's first 64
 * bytes, which leaves its version byte and its key table out, and a trailer of
 * 8. Bytes past the 72 stay. 0 or 9. */
CALUGNID_WARN_UNUSED
uint8_t calugnid_save(const uint8_t *state,
                      uint8_t *saved, size_t saved_length);

/* Makes the controller of the image, of either edition, that stands at the end
 * of `image`, with this version byte and the built-in key table. Nothing stays
 * of what the state held before. If it is locked, it goes on as if the first
 * keys of the code, as many as its position says, had just been typed. Returns
 * 0, 10 or 11. If refused, the state and its settings are unchanged. */
CALUGNID_WARN_UNUSED
uint8_t calugnid_load(uint8_t *state, uint8_t version,
                      const uint8_t *image, size_t image_length);

/* The same with a key table of the caller's, which is copied into the state.
 * The checks, in their order: 0, 10, 11, 13, 14 or 15. */
CALUGNID_WARN_UNUSED
uint8_t calugnid_load_with_table(uint8_t *state, uint8_t version,
                                 const uint8_t *table, size_t table_length,
                                 const uint8_t *image, size_t image_length);

/* ---- Questions about a state. Nothing changes. */

/* The status, which a host reads at port 64h. */
uint8_t calugnid_status(const uint8_t *state);

/* The lines with no event, as after a start or a load: an answer that holds 0
 * for refusal, byte read, old mark and pulse. */
void calugnid_lines(const uint8_t *state, uint8_t *answer);

/* The check, 1-6 or 12, that would refuse this event now, or 0. It is the same
 * check for every value up to the largest that the kind takes. */
uint8_t calugnid_refusal(const uint8_t *state, uint8_t kind, uint16_t value);

/* Whether an event of this kind would be accepted now, with any value up to
 * the largest that the kind takes: for a frame that is still to come. */
bool calugnid_ready(const uint8_t *state, uint8_t kind);

/* Whether the controller is locked. */
bool calugnid_locked(const uint8_t *state);

/* The byte being sent, 0 if nothing is being sent. */
uint8_t calugnid_sent_byte(const uint8_t *state);

/* The settings of the start or of the load: the options less the bits that are
 * not looked at, and the version byte. The key table stands in the state. */
uint8_t calugnid_options(const uint8_t *state);
uint8_t calugnid_version_byte(const uint8_t *state);

/* ---- Without a state. */

/* Runs a list of events on a fresh controller with the settings that `options`
 * names, this version byte and the built-in key table. 0, 7 or 8. */
CALUGNID_WARN_UNUSED
uint8_t calugnid_run(uint8_t options, uint8_t version,
                     const uint8_t *list, size_t list_length,
                     uint8_t *answers, size_t answers_length);

/* The same with a key table of the caller's. The checks, in their order: 0, 13,
 * 14, 15, 7 or 8. */
CALUGNID_WARN_UNUSED
uint8_t calugnid_run_with_table(uint8_t options, uint8_t version,
                                const uint8_t *table, size_t table_length,
                                const uint8_t *list, size_t list_length,
                                uint8_t *answers, size_t answers_length);

/* The check, 13, 14 or 15, that would refuse a key table, or 0. */
uint8_t calugnid_table_refusal(const uint8_t *table, size_t table_length);

/* Loads the image, of either edition, at the end of `image`, with this version
 * byte and the built-in key table, runs the list, and saves to the first 72
 * bytes of `saved`. All checks come before anything is written, in the order of
 * their numbers: 0, 7, 8, 9, 10 or 11. */
CALUGNID_WARN_UNUSED
uint8_t calugnid_run_image(uint8_t version,
                           const uint8_t *image, size_t image_length,
                           const uint8_t *list, size_t list_length,
                           uint8_t *answers, size_t answers_length,
                           uint8_t *saved, size_t saved_length);

/* The same with a key table of the caller's, which is not saved. The checks, in
 * their order: 0, 7, 8, 9, 10, 11, 13, 14 or 15. */
CALUGNID_WARN_UNUSED
uint8_t calugnid_run_image_with_table(uint8_t version,
                                      const uint8_t *table, size_t table_length,
                                      const uint8_t *image, size_t image_length,
                                      const uint8_t *list, size_t list_length,
                                      uint8_t *answers, size_t answers_length,
                                      uint8_t *saved, size_t saved_length);

/* Moves the image of edition 1 at the end of `image` to edition 2: writes it to
 * the first 72 bytes of `moved`, without options. Both load to the same state.
 * Bytes past the 72 stay; refused, nothing is written. The checks, in their
 * order: 0, 10 (an image of edition 2 too), 11 or 9. */
CALUGNID_WARN_UNUSED
uint8_t calugnid_move_to_edition_2(const uint8_t *image, size_t image_length,
                                   uint8_t *moved, size_t moved_length);

/* Moves the image of edition 2 at the end of `image` back to edition 1: writes
 * it to the first 68 bytes of `moved`. Its bytes 60-63 have to be 00h, 3Fh, 03h
 * and 00h, as a controller without options has them and no other has: edition 1
 * has no room for more, and 16 refuses it. So no move loses anything, and to
 * move an image there and back gives the same bytes. Bytes past the 68 stay;
 * refused, nothing is written. The checks, in their order: 0, 10 (an image of
 * edition 1 too), 11, 16 or 9. */
CALUGNID_WARN_UNUSED
uint8_t calugnid_move_to_edition_1(const uint8_t *image, size_t image_length,
                                   uint8_t *moved, size_t moved_length);

/* Where the body of the image at the end of `image` starts, or image_length
 * where there is no image (refusal 10). From there to the end are 72 bytes of
 * edition 2, 68 of edition 1, or none. */
size_t calugnid_find(const uint8_t *image, size_t image_length);

/* The edition of the image at the end of `image`, 1 or 2, or 0 where there is
 * no image (refusal 10). The rules of its body are not looked at. */
static inline int calugnid_edition(const uint8_t *image, size_t image_length)
{
    switch (image_length - calugnid_find(image, image_length)) {
    case CALUGNID_EDITION_1_BYTES: return 1;
    case CALUGNID_IMAGE_BYTES: return 2;
    default: return 0;
    }
}

/* The frame check: 0-FFh the byte of a sound frame, else what is wrong with it.
 * The start bit is judged first, then the stop bit, then parity. A number of
 * more than eleven bits is no frame, and a framing error whatever its bits. */
uint16_t calugnid_judge(uint16_t frame);

/* The eleven-bit frame of a byte. */
uint16_t calugnid_frame(uint8_t byte);

/* Scan code set 2 to set 1 by the built-in key table: bits 0-7 the byte,
 * CALUGNID_YIELDS where there is one, CALUGNID_BREAK_FLAG where the break flag
 * is set afterwards. */
uint16_t calugnid_translate(uint8_t byte, bool break_flag);

/* ---- A trackball that a board keeps: `trackball` is 6 bytes, `frames` is 4
 * numbers. It is a PS/2 mouse that stands apart from every controller: the
 * board hands it the bytes that its host sends to the mouse, and feeds the
 * controller its frames.
 *
 * A trackball keeps the movement since the last packet as two sums, x and y,
 * from -256 to 255, each with an overflow, three buttons, and whether it
 * reports. Its bytes are: 0 the buttons in bits 0-2; 1 reporting in bit 0, the
 * overflow of x in bit 1 and of y in bit 2; 2 and 3 the sum x, 4 and 5 the sum
 * y, sixteen bits in two's complement, low byte first. The other bits of bytes
 * 0 and 1 stand for nothing: they are not read, and each call leaves them 0.
 * Any six bytes are a trackball: of a sum beyond its ends a packet has the sign
 * and the low byte, and the next move brings it within them.
 *
 * A call that hands out frames writes them, in order, to the first places of
 * `frames` and returns how many they are; the places past them stay. Each is
 * the sound frame of a byte. Deliver them one by one as CALUGNID_MOUSE_FRAME,
 * each when calugnid_ready says that it would be taken, and in order: the
 * trackball keeps no copy. What a caller owes is what it owes a state. */

/* Makes a trackball after power-on: reporting off, sums 0, no button down. */
void calugnid_trackball_start(uint8_t *trackball);

/* Sets the buttons from bits 0-2 (CALUGNID_PACKET_LEFT and so on) and adds the
 * steps, reporting or not. A sum that would be below -256 or above 255 stops at
 * that end and sets its overflow, which stays until a packet or a reset; -256
 * and 255 themselves set none. */
void calugnid_trackball_move(uint8_t *trackball, uint8_t buttons,
                             int16_t x, int16_t y);

/* A byte that the host sent to it: the frames of its reply, 1 to 4 of them.
 * After a packet sums and overflows are 0. */
size_t calugnid_trackball_send(uint8_t *trackball, uint8_t byte,
                               uint16_t *frames);

/* What it reports: while reporting is on one packet, 3 frames, after which sums
 * and overflows are 0; while it is off none, and sums and overflows stay. It
 * reports whether anything is new or not: when to ask is the board's to say. */
size_t calugnid_trackball_report(uint8_t *trackball, uint16_t *frames);

/* ---- Names, for messages. */

/* What a refusal is called. */
static inline const char *calugnid_refusal_name(uint8_t refusal)
{
    switch (refusal) {
    case CALUGNID_ACCEPTED: return "accepted";
    case CALUGNID_BAD_KIND: return "no such kind of event";
    case CALUGNID_BAD_VALUE: return "value too large";
    case CALUGNID_SENDING: return "a byte is being sent";
    case CALUGNID_LOCKED: return "locked";
    case CALUGNID_NOT_READY: return "not ready for a frame";
    case CALUGNID_NOT_SENDING: return "nothing is being sent";
    case CALUGNID_BAD_LIST: return "bad length of a list";
    case CALUGNID_NO_ROOM: return "no room for the answers";
    case CALUGNID_NO_SAVE_ROOM: return "no room for the image";
    case CALUGNID_BAD_IMAGE: return "no image, or of another edition";
    case CALUGNID_BAD_BODY: return "image breaks a body rule";
    case CALUGNID_NO_MOUSE: return "no mouse in AT mode";
    case CALUGNID_BAD_TABLE: return "bad length of a key table";
    case CALUGNID_BAD_KEYS: return "key table is no permutation";
    case CALUGNID_BAD_FIXED: return "key table changes a fixed entry";
    case CALUGNID_NEEDS_EDITION_2: return "image needs edition 2";
    default: return "no refusal";
    }
}

/* What a kind of event is called. */
static inline const char *calugnid_kind_name(uint8_t kind)
{
    switch (kind) {
    case CALUGNID_READ_DATA: return "read 60h";
    case CALUGNID_WRITE_DATA: return "write 60h";
    case CALUGNID_READ_STATUS: return "read 64h";
    case CALUGNID_WRITE_COMMAND: return "write 64h";
    case CALUGNID_KEYBOARD_FRAME: return "keyboard frame";
    case CALUGNID_MOUSE_FRAME: return "mouse frame";
    case CALUGNID_BYTE_TAKEN: return "byte taken";
    case CALUGNID_BYTE_TIMED_OUT: return "byte timed out";
    case CALUGNID_PINS: return "pins";
    default: return "no event";
    }
}

#ifdef __cplusplus
}
#endif

#endif
