/* What the C programs of the tests check with. */
#ifndef CHECKS_H
#define CHECKS_H

#include <stdio.h>
#include <string.h>

#include "calugnid.h"

/* The part of a state that an image holds. The options stand in one byte of it,
 * and three bits of them are looked at. */
enum { BODY_BYTES = 64, OPTIONS_BYTE = 60, OPTION_CHOICES = 8 };

/* The part that an image of edition 1 holds, and a trailer. */
enum { EDITION_1_BODY_BYTES = 60, TRAILER_BYTES = 8 };

static int failures;

#define CHECK(condition) check((condition), #condition, __FILE__, __LINE__)

static inline void check(bool holds, const char *condition, const char *file, int line)
{
    if (holds)
        return;
    printf("%s, line %d: %s\n", file, line, condition);
    failures++;
}

/* Whether the event is accepted, reads nothing and leaves these lines, with
 * nothing being sent. */
static inline bool leaves(uint8_t *state, uint8_t kind, uint16_t value, uint8_t status, uint8_t p2)
{
    const uint8_t right[] = {0, 0, 0, status, p2, 0, 0, 0, 0};
    uint8_t answer[CALUGNID_ANSWER_BYTES];

    calugnid_event(state, kind, value, answer);
    return memcmp(answer, right, sizeof right) == 0;
}

/* Whether the host reads this byte, new or old. */
static inline bool reads(uint8_t *state, uint8_t byte, bool old)
{
    uint8_t answer[CALUGNID_ANSWER_BYTES];

    calugnid_event(state, CALUGNID_READ_DATA, 0, answer);
    return answer[CALUGNID_ANSWER_READ] == byte && (answer[CALUGNID_ANSWER_OLD] == 1) == old;
}

/* Whether the command puts this byte and nothing else changes. */
static inline bool puts_byte(uint8_t *state, uint8_t command, uint8_t byte, uint8_t p2)
{
    return leaves(state, CALUGNID_WRITE_COMMAND, command, 0x19, p2) && reads(state, byte, false);
}

/* Writes the trailer behind a body: distance, sum of its words, edition, mark. */
static inline void put_trailer(uint8_t *image, size_t body_bytes, uint8_t edition)
{
    uint8_t *trailer = image + body_bytes;
    unsigned sum = 0;

    for (size_t i = 0; i < body_bytes; i += 2)
        sum += image[i] + 256u * image[i + 1];
    trailer[0] = (uint8_t)body_bytes;
    trailer[1] = 0;
    trailer[2] = (uint8_t)sum;
    trailer[3] = (uint8_t)(sum >> 8);
    trailer[4] = edition;
    trailer[5] = 0x4B;
    trailer[6] = 0x42;
    trailer[7] = 0x43;
}

/* The built-in key table, as calugnid_translate has it. F0h yields nothing there,
 * and its entry is itself. */
static inline void built_in_table(uint8_t *table)
{
    for (unsigned byte = 0; byte < CALUGNID_TABLE_BYTES; byte++)
        table[byte] = (uint8_t)calugnid_translate((uint8_t)byte, false);
    table[0xF0] = 0xF0;
}

/* The built-in table with two keys changed about, so that 1Ch gives 30h and 32h
 * gives 1Eh, and with two bytes that are no keys: 90h gives 1Eh, 91h gives F0h. */
static inline void changed_about(uint8_t *table)
{
    built_in_table(table);
    table[0x1C] = 0x30;
    table[0x32] = 0x1E;
    table[0x90] = 0x1E;
    table[0x91] = 0xF0;
}

#endif
