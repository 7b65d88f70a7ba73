/* Runs a net through the proved engine from C and prints what netrun would: the answer to each pick, then the tables.
 *
 *     mkdir -p scratch && cc -Iinclude examples/embed/embed.c target/staticlib/libtivgeral.a -o scratch/embed
 *     scratch/embed examples/update.net            the file's own picks
 *     scratch/embed examples/update.net 0:0 1:3    other picks, THREAD:ROW each
 */
#include <stdio.h>
#include <stdlib.h>
#include <string.h>

#include "tivgeral.h"

enum { PICKS = TIVGERAL_PICKS_BYTES / 2 }; /* as many as a file can have */

static uint8_t picks[TIVGERAL_PICKS_BYTES];
static uint8_t answers[TIVGERAL_ANSWER_BYTES * PICKS];
static uint8_t tables[TIVGERAL_TABLES_BYTES];

/* The whole file, also one that is too long: the engine says what is wrong with it. NULL where it can't be read. */
static uint8_t *read_file(const char *path, size_t *length) {
    FILE *input = fopen(path, "rb");
    if (input == NULL)
        return NULL;
    uint8_t *bytes = NULL;
    long end = fseek(input, 0, SEEK_END) == 0 ? ftell(input) : -1;
    if (end >= 0 && fseek(input, 0, SEEK_SET) == 0)
        bytes = malloc((size_t)end + 1);
    if (bytes != NULL)
        *length = fread(bytes, 1, (size_t)end, input);
    fclose(input);
    return bytes;
}

/* Gives back 1 where an argument is no pick, or there are too many. */
static int given_picks(int count, char **words, size_t *length) {
    for (int place = 0; place < count; place++) {
        unsigned thread, row;
        char rest;
        if (place == PICKS || sscanf(words[place], "%u:%u%c", &thread, &row, &rest) != 2 || thread > 255 || row > 255)
            return 1;
        picks[(*length)++] = (uint8_t)thread;
        picks[(*length)++] = (uint8_t)row;
    }
    return 0;
}

/* Numbers are little endian on every processor. */
static uint64_t number_at(const uint8_t *bytes, int length) {
    uint64_t number = 0;
    for (int place = length - 1; place >= 0; place--)
        number = number << 8 | bytes[place];
    return number;
}

static void print_answers(size_t length) {
    for (size_t at = 0; at < length; at += TIVGERAL_ANSWER_BYTES) {
        const uint8_t *answer = answers + at;
        if (number_at(answer, 8) == TIVGERAL_DONE)
            printf("pick %zu done %llu %llu\n", at / TIVGERAL_ANSWER_BYTES, (unsigned long long)number_at(answer + 8, 8),
                   (unsigned long long)number_at(answer + 16, 8));
        else
            printf("pick %zu no %llu\n", at / TIVGERAL_ANSWER_BYTES, (unsigned long long)number_at(answer, 8));
    }
}

/* Four operands of 8 bytes: a tag, three bytes that are zero in rows, and the value. */
static void print_row(const uint8_t *record) {
    printf("row");
    for (const uint8_t *operand = record + 56; operand < record + 88 && operand[0] != 0; operand += 8) {
        const uint8_t *value = operand + 4;
        if (operand[0] == 1)
            printf(" %ld", (long)(int32_t)number_at(value, 4));
        else if (operand[0] == 2)
            printf(" %.4s", (const char *)value);
        else
            printf(" @%d", value[0]);
    }
    printf("\n");
}

/* Byte 0 is the kind; site and name are at bytes 1 and 4. */
static int is_row_of(const uint8_t *record, const uint8_t *table) {
    return record[0] == TIVGERAL_KIND_ROW && record[1] == table[1] && memcmp(record + 4, table + 4, 4) == 0;
}

/* All tables come first, then the rows of each. */
static void print_tables(size_t length) {
    for (size_t at = 0; at < length && tables[at] == TIVGERAL_KIND_TABLE; at += TIVGERAL_RECORD_BYTES) {
        const uint8_t *table = tables + at;
        size_t rows = 0;
        for (size_t other = 0; other < length; other += TIVGERAL_RECORD_BYTES)
            rows += is_row_of(tables + other, table);
        printf("table %d %.4s %zu\n", table[1], (const char *)table + 4, rows);
        for (size_t other = 0; other < length; other += TIVGERAL_RECORD_BYTES)
            if (is_row_of(tables + other, table))
                print_row(tables + other);
    }
}

/* Each call loads the file and runs all picks; what it puts out has the length that it leaves in place. */
static uint8_t run(const uint8_t *file, size_t file_len, size_t picks_len, size_t *place) {
    uint8_t number = tivgeral_answers(file, file_len, picks, picks_len, answers, sizeof answers, place);
    if (number != TIVGERAL_DONE)
        return number;
    print_answers(*place);
    number = tivgeral_tables(file, file_len, picks, picks_len, tables, sizeof tables, place);
    if (number == TIVGERAL_DONE)
        print_tables(*place);
    return number;
}

int main(int count, char **words) {
    size_t picks_len = 0;
    if (count < 2 || given_picks(count - 2, words + 2, &picks_len)) {
        fprintf(stderr, "usage: embed FILE.net [THREAD:ROW ..]\n");
        return 2;
    }
    size_t file_len = 0;
    uint8_t *file = read_file(words[1], &file_len);
    if (file == NULL) {
        perror(words[1]);
        return 2;
    }

    /* The calls run the picks that they are given, so the file's own are asked for and handed over. */
    size_t place = 0;
    uint8_t number = TIVGERAL_DONE;
    if (count == 2) {
        number = tivgeral_picks(file, file_len, picks, sizeof picks, &place);
        picks_len = place;
    }
    if (number == TIVGERAL_DONE)
        number = run(file, file_len, picks_len, &place);
    if (number != TIVGERAL_DONE) {
        printf("load %d at %zu\n", number, place);
        fprintf(stderr, "%s: %s\n", words[1], tivgeral_text(number));
    }
    free(file);
    return number != TIVGERAL_DONE;
}
