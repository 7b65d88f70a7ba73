/* Reads a net from standard input, runs its own picks and prints what netpage prints, by the names of the header alone: each table left, its line and its
 * page. Before each page it asks for the length. Ends with status 1 where a refusal is not as the header says. */
#include <stdio.h>
#include <string.h>

#include "tivgeral.h"

static uint8_t file[65536];
static uint8_t picks[TIVGERAL_PICKS_BYTES];
static uint8_t tables[TIVGERAL_TABLES_BYTES];
static uint8_t page[TIVGERAL_PAGE_BYTES];
static size_t length, picks_length;

static uint8_t page_of(unsigned site, const char *name, size_t room, size_t *place) {
    return tivgeral_page(file, length, picks, picks_length, (uint8_t)site, tivgeral_name(name), page, room, place);
}

/* The line and the page of the table that has this record. */
static int print_table(const uint8_t *table) {
    char name[5] = {0};
    size_t needed, place;
    memcpy(name, table + 4, 4);
    if (page_of(table[1], name, 0, &needed) != TIVGERAL_SHORT_FOR_PAGE || needed > sizeof page)
        return 1;
    if (page_of(table[1], name, needed, &place) != TIVGERAL_DONE || place != needed)
        return 1;
    printf("table %d %s %zu\n", table[1], name, place / TIVGERAL_LINE_BYTES - 1);
    return fwrite(page, 1, place, stdout) != place;
}

/* No site 8 has a table, and no table has a name of five characters. */
static int finds_none(unsigned site, const char *name) {
    size_t place = 77;
    return page_of(site, name, sizeof page, &place) == TIVGERAL_NO_TABLE && place == 0;
}

int main(void) {
    size_t put = 0, place;
    length = fread(file, 1, sizeof file, stdin);
    uint8_t number = tivgeral_picks(file, length, picks, sizeof picks, &place);
    picks_length = place;
    if (number == TIVGERAL_DONE)
        number = tivgeral_tables(file, length, picks, picks_length, tables, sizeof tables, &put);
    if (number != TIVGERAL_DONE) {
        printf("load %d at %zu\n", number, place);
        return 0;
    }
    for (size_t at = 0; at < put && tables[at] == TIVGERAL_KIND_TABLE; at += TIVGERAL_RECORD_BYTES)
        if (print_table(tables + at))
            return 1;
    return !finds_none(8, "CARD") || !finds_none(1, "CARDS");
}
