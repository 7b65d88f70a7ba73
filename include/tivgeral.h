/* Tivgeral for C: run a Klaim-DB net file and read off tables, a table's page, answers, threads, or a trace with all that threads hold.
 *
 *     tools/build                                    makes target/staticlib/libtivgeral.a
 *     cc -Iinclude program.c target/staticlib/libtivgeral.a
 *
 * A Rust program declares the same functions with the same parameters in an `unsafe extern "C"` block, or depends on tools/embed.
 *
 * The library is for x86-64 Linux. It needs memcpy and memset of the C library and nothing else: no heap, no files, no state kept between
 * calls. Calls from several threads at once do not disturb each other. A net is held by value, so a call takes stack space: have 1 MiB free
 * (640 KiB were enough for every stored example).
 *
 * What goes in
 *
 *   file    A net file: records of 104 bytes, as README.md lists them ("Files"). The picks in the file are not run: tivgeral_picks gives them.
 *   picks   The picks to run, in order, two bytes each: thread place, row place. Any number of them, also none. Not for tivgeral_picks.
 *   from    How many picks are run before the first moment of a trace. Any number. For tivgeral_trace alone.
 *   site    The number of the site whose table is laid out. Any number. For tivgeral_page alone.
 *   name    The name of that table as a number, which tivgeral_name makes. Any number. For tivgeral_page alone.
 *   out     A buffer that the call may write to.
 *   place   Always set by the call.
 *
 * Each pointer but `place` is followed by its length in bytes. No pointer may be null, not even with the length 0. `out` and `*place` must
 * not overlap each other, the file or the picks.
 *
 * What comes back: a number, and *place
 *
 *   0         Done. *place is the number of bytes put into `out`, from its start. The bytes after them are as they were.
 *   1 to 9    The file was refused when it was loaded. *place is the place of the record at fault, counted from 0 (for number 1 the count of
 *             whole records, for number 2 always 256). README.md, "The numbers", says what each means and what to do.
 *   14        No table of that name stands at that site after all picks; a site above 7 has none. *place is 0. From tivgeral_page alone.
 *   21        `out` is too short for what would be put there. *place is the length that is needed (SIZE_MAX where that does not fit a size_t).
 *   22        `out` is shorter than the page. *place is the length that is needed. From tivgeral_page alone, which has no 21.
 *   100       The length of `picks` is odd. *place is 0. tivgeral_picks takes no picks, so it has no 100. (Numbers that only these calls have
 *             begin at 100.)
 *
 * After 1 to 9, 14, 21, 22 and 100 every byte of `out` is as it was. 100 is judged first, then the file, then 14, then 21 or 22. There is no other
 * number.
 *
 * A refused pick is no error of a call: it changes nothing, is answered with its number, and the run goes on with the next pick.
 *
 * What comes back is proved for every file, every list of picks and every buffer: crates/call_rules/specs/Calls.antt has the definition of what a
 * call gives back, Replies.antt beside it that of 21 and of SIZE_MAX, Layouts.antt that of the bytes of tables, threads and picks, Moments.antt
 * and Traces.antt that of a trace, crates/step_bytes/specs/AnswerBytes.antt that of answers, and crates/page_rules/specs/Pages.antt that of a page,
 * of 14 and of 22. That the numbers on a page read as those of the table is a theorem, PageReading.antt beside Calls.antt. The stack space is
 * measured, not proved.
 */
#ifndef TIVGERAL_H
#define TIVGERAL_H

#include <stddef.h>
#include <stdint.h>

#ifdef __cplusplus
extern "C" {
#endif

#define TIVGERAL_VERSION "0.3.0"

/* Lengths in bytes. */
enum {
    TIVGERAL_RECORD_BYTES = 104, /* a record of a file or of a trace */
    TIVGERAL_ANSWER_BYTES = 24,  /* the answer to a pick */
    TIVGERAL_THREAD_BYTES = 24,  /* a thread, as tivgeral_threads puts it */
    TIVGERAL_CELL_BYTES = 13,    /* a cell of a page */
    TIVGERAL_LINE_BYTES = 53,    /* a line of a page: four cells and a line feed */
    /* the most that a call puts out */
    TIVGERAL_TABLES_BYTES = 136 * TIVGERAL_RECORD_BYTES,
    TIVGERAL_THREADS_BYTES = 8 * TIVGERAL_THREAD_BYTES,
    TIVGERAL_MOMENT_BYTES = 3809 * TIVGERAL_RECORD_BYTES, /* one moment of a trace */
    TIVGERAL_PAGE_BYTES = 17 * TIVGERAL_LINE_BYTES,
    TIVGERAL_PICKS_BYTES = 512
};

/* The numbers of calls and of answers to picks. README.md, "The numbers", says what to do about each. */
enum tivgeral_number {
    TIVGERAL_DONE = 0,
    /* the file was refused when it was loaded */
    TIVGERAL_LENGTH = 1,
    TIVGERAL_RECORDS = 2,
    TIVGERAL_UNKNOWN_KIND = 3,
    TIVGERAL_FIELD = 4,
    TIVGERAL_ORDER = 5,
    TIVGERAL_TWICE = 6,
    TIVGERAL_ROW = 7,
    TIVGERAL_FILE_LIMIT = 8,
    TIVGERAL_LINK = 9,
    /* a pick was refused; by 14 also a call for a page */
    TIVGERAL_NO_THREAD = 11,
    TIVGERAL_UNBOUND = 12,
    TIVGERAL_NO_SITE = 13,
    TIVGERAL_NO_TABLE = 14,
    TIVGERAL_TABLE_THERE = 15,
    TIVGERAL_MISFIT = 16,
    TIVGERAL_HELD = 17,
    TIVGERAL_AGGREGATE = 18,
    TIVGERAL_ROW_PLACE = 19,
    TIVGERAL_LIMIT = 20,
    /* the call was refused */
    TIVGERAL_SHORT = 21,
    TIVGERAL_SHORT_FOR_PAGE = 22,
    TIVGERAL_ODD_PICKS = 100
};

/* What a number says, in the words of README.md; NULL for one that no call and no answer has. */
static inline const char *tivgeral_text(unsigned number) {
    switch (number) {
    case TIVGERAL_DONE: return "done";
    case TIVGERAL_LENGTH: return "the length is no multiple of 104; the place counts the whole records";
    case TIVGERAL_RECORDS: return "over 256 records; the place is 256";
    case TIVGERAL_UNKNOWN_KIND: return "the kind is unknown";
    case TIVGERAL_FIELD: return "a field, tag or unused byte breaks its rule";
    case TIVGERAL_ORDER: return "its group comes before that of an earlier record";
    case TIVGERAL_TWICE: return "this alias (site and locality) or table (site and name) came before";
    case TIVGERAL_ROW: return "the row's table is absent, or the row does not fit";
    case TIVGERAL_FILE_LIMIT: return "the 9th table or start, 129th node, or 17th row of its table";
    case TIVGERAL_LINK: return "next (unless 255) or a loop's body is not above its own node's number, or one of these or a start names no node of the file";
    case TIVGERAL_NO_THREAD: return "no thread has that place";
    case TIVGERAL_UNBOUND: return "a variable read in the predicate or in t is unbound and no formal of T, one read in L, T or T' is unbound, or the table variable read is";
    case TIVGERAL_NO_SITE: return "L is no Loc, or its locality has no alias at the thread's site";
    case TIVGERAL_NO_TABLE: return "no such table at the site that L means (not for create); paging: no such table at the site given";
    case TIVGERAL_TABLE_THERE: return "create: the table is there";
    case TIVGERAL_MISFIT: return "T is not as long as the columns, a row or table to insert does not fit, or the column of functions 2 to 4 is absent or no Int";
    case TIVGERAL_HELD: return "a loop entry of this thread holds the table variable to be bound, also with no row left";
    case TIVGERAL_AGGREGATE: return "the aggregate is a least or largest of no rows, leaves 32 bits, or fails T'";
    case TIVGERAL_ROW_PLACE: return "a matching row is left to visit, but the pick's row place is not one";
    case TIVGERAL_LIMIT: return "a limit on rows, tables, threads or stack entries would be passed";
    case TIVGERAL_SHORT: return "writing: the buffer is too short";
    case TIVGERAL_SHORT_FOR_PAGE: return "paging: the buffer is shorter than the page";
    case TIVGERAL_ODD_PICKS: return "the length of the picks is odd";
    default: return NULL;
    }
}

/* The tables that stand after all picks: a table record for each table and then a row record for each row, table by table, 104 bytes each.
 * The bytes are a net file again: it loads, and has the same tables. TIVGERAL_TABLES_BYTES is the most. */
uint8_t tivgeral_tables(const uint8_t *file, size_t file_length, const uint8_t *picks, size_t picks_length, uint8_t *out, size_t out_length, size_t *place);

/* The answer to each pick, in order, TIVGERAL_ANSWER_BYTES each:
 *
 *   bytes 0 to 7     0 for done, else the number 11 to 20 of the refusal
 *   bytes 8 to 15    rows added
 *   bytes 16 to 23   rows taken
 *
 * each as eight bytes, the lowest first. A refused pick adds and takes none. So `out` needs 12 bytes for each byte of `picks`. */
uint8_t tivgeral_answers(const uint8_t *file, size_t file_length, const uint8_t *picks, size_t picks_length, uint8_t *out, size_t out_length, size_t *place);

/* The threads that stand after all picks, in order, TIVGERAL_THREAD_BYTES each:
 *
 *   byte 0           site
 *   byte 1           entries on its stack, 1 to 8
 *   byte 2           the top entry: 0 a node to run, 1 a loop
 *   byte 3           the number of that entry's node
 *   bytes 4 to 7     zeros
 *   bytes 8 to 23    for each row place 0 to 15: 1 if the loop has still to visit it, else 0; all 0 for a node to run
 *
 * TIVGERAL_THREADS_BYTES is the most. A thread's place in this list is the one that picks name. */
uint8_t tivgeral_threads(const uint8_t *file, size_t file_length, const uint8_t *picks, size_t picks_length, uint8_t *out, size_t out_length, size_t *place);

/* A trace: moment after moment, each with all that stands then. The first is the net after the first `from` picks (after all of them, where
 * there are fewer), then comes the net after each further pick; as many whole moments, in order, as `out` has room for. With `from` at
 * picks_length / 2 or above it is the net after all picks alone. 21 where not even the first moment has room: *place is then the length of the
 * first moment. A buffer of TIVGERAL_MOMENT_BYTES has room for any moment.
 *
 * To trace a long list in pieces, call again with `from` raised by the number of moments that came back. There are picks_length / 2 + 1 moments
 * in all: stop once `from` is above picks_length / 2. The answers come from tivgeral_answers.
 *
 * A moment is records of 104 bytes, in this order; bytes that are not named are zero:
 *
 *   kind 64, the moment          byte 1 how many tables, byte 2 how many threads, bytes 4 to 7 how many records it has, this one included, the lowest byte first
 *   kinds 2 and 3                the tables and rows, as tivgeral_tables puts them
 *   then for each thread, by place:
 *   kind 65, the thread          byte 1 site, byte 2 entries on its stack
 *   kind 66, sixteen times       a variable: byte 1 its number, bytes 56 to 63 its value as in a row record, all zero while it is unbound
 *   kind 67, for 0 and for 1     a table variable: byte 1 its number, byte 2 1 if it is bound, bytes 8 to 11 its columns as in a table record
 *   kind 68, after its 67        a row of it: byte 1 the table variable's number, bytes 56 to 87 its values as in a row record
 *   kind 69, the top first       a stack entry: byte 1 0 a node to run, 1 a loop, byte 2 the node's number, bytes 8 to 23 for each row place 0 to 15:
 *                                1 if the loop has still to visit it
 *   kinds 66 to 68, after a 69   the bindings that this entry holds, laid out as those of a thread: a sequential loop's entry has them, no other
 *
 * A sequential loop's entry holds the variables and table variables of the moment when its loop was first met, before the formals of the first round
 * were bound. All of them come back in the step that ends a round, the last one too, so after the loop they are what they were before it. Behind that
 * entry's record stands kind 66 sixteen times, and kind 67 for 0 and for 1, each followed by its rows. A node to run holds none, and neither does a
 * parallel loop, whose rounds are threads of their own. So records of kinds 66 to 68 before a thread's first record of kind 69 are the thread's own,
 * and those between a record of kind 69 and the next of kind 69, 65 or 64 are held by that entry.
 *
 * Later versions add kinds, name bytes that are zero now, and give variables further tags. Skip a kind that you do not know; do not test unnamed
 * bytes; a variable whose byte 56 is a tag that you do not know is bound, to a value that you do not know. */
enum tivgeral_kind {
    TIVGERAL_KIND_TABLE = 2,
    TIVGERAL_KIND_ROW = 3,
    TIVGERAL_KIND_MOMENT = 64,
    TIVGERAL_KIND_THREAD = 65,
    TIVGERAL_KIND_VARIABLE = 66,
    TIVGERAL_KIND_TABLE_VARIABLE = 67,
    TIVGERAL_KIND_TABLE_VARIABLE_ROW = 68,
    TIVGERAL_KIND_ENTRY = 69
};

uint8_t tivgeral_trace(const uint8_t *file, size_t file_length, const uint8_t *picks, size_t picks_length, size_t from, uint8_t *out, size_t out_length, size_t *place);

/* A table's name as tivgeral_page takes it: its four bytes as one number, the first byte highest, so "CARD" is 0x43415244. A shorter text is filled
 * up with blanks at its end, as netasm does. A longer one is no name: it gives 0, and no table is called that, so tivgeral_page finds none. */
static inline uint32_t tivgeral_name(const char *text) {
    uint32_t name = 0;
    for (int place = 0; place < 4; place++)
        name = name << 8 | (uint8_t)(*text != '\0' ? *text++ : ' ');
    return *text == '\0' ? name : 0;
}

/* The page of one table that stands after all picks, for people to read: a line for each row, in order, and a last line with the sums.
 *
 *     uint8_t picks[TIVGERAL_PICKS_BYTES], page[TIVGERAL_PAGE_BYTES];
 *     size_t picks_length, length;
 *     if (tivgeral_picks(file, file_length, picks, sizeof picks, &picks_length) == TIVGERAL_DONE
 *         && tivgeral_page(file, file_length, picks, picks_length, 1, tivgeral_name("CARD"), page, sizeof page, &length) == TIVGERAL_DONE)
 *         fwrite(page, 1, length, stdout);
 *
 *   a line    TIVGERAL_LINE_BYTES: four cells of TIVGERAL_CELL_BYTES, one for each column, and a line feed. Cells past the last column are blank.
 *   an Int    in decimal at the right of its cell, with - directly before its digits
 *   a Text    its four bytes at the left of its cell
 *   a Loc     @ and its digit at the left of its cell
 *   a sum     in the last line, in the cell of each Int column: the sum over all rows, put like an Int and never cut to 32 bits, so it is from
 *             -34359738368 to 34359738352; 0 where there are no rows. The other cells of that line are blank.
 *
 * A number has at most 12 places, so its cell begins with a blank. Nothing else keeps cells apart: a Text or Loc to the right of a number begins
 * directly behind its last digit, as in -21@1. So read cells by their places: cell i of line j, both from 0, begins at byte
 * j * TIVGERAL_LINE_BYTES + i * TIVGERAL_CELL_BYTES.
 *
 * A page has (rows + 1) * TIVGERAL_LINE_BYTES. TIVGERAL_PAGE_BYTES is the most. */
uint8_t tivgeral_page(const uint8_t *file, size_t file_length, const uint8_t *picks, size_t picks_length, uint8_t site, uint32_t name, uint8_t *out, size_t out_length, size_t *place);

/* The picks that the file has itself, in order, two bytes each, as the other calls take them. TIVGERAL_PICKS_BYTES is the most. */
uint8_t tivgeral_picks(const uint8_t *file, size_t file_length, uint8_t *out, size_t out_length, size_t *place);

#ifdef __cplusplus
}
#endif

#endif
