/* Reads a net from standard input and traces its own picks, by the names of the header alone. For each moment it prints how many threads stand,
 * how many variables and table variables they have bound, how many entries are on their stacks, and how many bindings these entries hold. */
#include <stdio.h>

#include "tivgeral.h"

static uint8_t file[65536];
static uint8_t picks[TIVGERAL_PICKS_BYTES];
static uint8_t out[TIVGERAL_MOMENT_BYTES]; /* room for one moment at least */

/* How many bytes a moment has. */
static size_t moment_length(const uint8_t *moment) {
    size_t records = moment[4] | (size_t)moment[5] << 8 | (size_t)moment[6] << 16 | (size_t)moment[7] << 24;
    return records * TIVGERAL_RECORD_BYTES;
}

static void print_moment(const uint8_t *moment) {
    unsigned threads = 0, variables = 0, tables = 0, entries = 0, held = 0;
    int of_thread = 0; /* and not of a stack entry */
    const uint8_t *end = moment + moment_length(moment);
    for (const uint8_t *record = moment; record < end; record += TIVGERAL_RECORD_BYTES) {
        switch (record[0]) {
        case TIVGERAL_KIND_THREAD:
            threads++;
            of_thread = 1;
            break;
        case TIVGERAL_KIND_VARIABLE:
            *(of_thread ? &variables : &held) += record[56] != 0;
            break;
        case TIVGERAL_KIND_TABLE_VARIABLE:
            *(of_thread ? &tables : &held) += record[2] == 1;
            break;
        case TIVGERAL_KIND_ENTRY:
            entries++;
            of_thread = 0;
            break;
        default: /* tables and their rows, and what later versions add */
            break;
        }
    }
    printf("%u %u %u %u %u\n", threads, variables, tables, entries, held);
}

/* Prints the moments in so many bytes of `out`, and gives back how many they are. */
static size_t print_moments(size_t length) {
    size_t count = 0;
    for (size_t at = 0; at < length && out[at] == TIVGERAL_KIND_MOMENT; at += moment_length(out + at)) {
        print_moment(out + at);
        count++;
    }
    return count;
}

int main(void) {
    size_t length = fread(file, 1, sizeof file, stdin), picks_length, put;
    uint8_t number = tivgeral_picks(file, length, picks, sizeof picks, &picks_length);
    /* The net before the first pick and after each, as many at a time as have room. */
    for (size_t from = 0; number == TIVGERAL_DONE && from <= picks_length / 2;) {
        number = tivgeral_trace(file, length, picks, picks_length, from, out, sizeof out, &put);
        size_t count = number == TIVGERAL_DONE ? print_moments(put) : 0;
        if (number == TIVGERAL_DONE && count == 0)
            return 1;
        from += count;
    }
    if (number != TIVGERAL_DONE)
        printf("%s\n", tivgeral_text(number));
    return 0;
}
