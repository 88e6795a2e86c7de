/* Makes a key table: the built-in one, in which the entries of two keys change
 * places for each two arguments, bytes of scan code set 2 in hexadecimal. Writes
 * its 256 bytes, or says which check refuses it and writes nothing. */
#include <stdio.h>
#include <stdlib.h>

#include "calugnid.h"

/* The byte that a word names, or -1. */
static long byte_of(const char *word)
{
    char *end;
    long byte = strtol(word, &end, 16);

    return end == word || *end != '\0' || byte < 0 || byte > 0xFF ? -1 : byte;
}

static void exchange(uint8_t *table, long one, long other)
{
    uint8_t entry = table[one];

    table[one] = table[other];
    table[other] = entry;
}

static int refused(const uint8_t *table)
{
    int check = calugnid_table_refusal(table, CALUGNID_TABLE_BYTES);

    if (check)
        fprintf(stderr, "no table: it would be refused by check %d\n", check);
    return check;
}

int main(int count, char **words)
{
    uint8_t state[CALUGNID_STATE_BYTES];
    uint8_t *table = state + CALUGNID_STATE_TABLE;

    calugnid_start(state, CALUGNID_ORDINARY, 0);
    for (int i = 1; i < count; i += 2) {
        long one = byte_of(words[i]);
        long other = i + 1 < count ? byte_of(words[i + 1]) : -1;

        if (one < 0 || other < 0) {
            fprintf(stderr, "use: make_table [KEY KEY]..., bytes of scan code set 2 in hexadecimal\n");
            return 2;
        }
        exchange(table, one, other);
    }
    if (refused(table))
        return 1;
    fwrite(table, 1, CALUGNID_TABLE_BYTES, stdout);
    return 0;
}
