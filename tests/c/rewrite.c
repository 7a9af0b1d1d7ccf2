/* Reads a case text and writes it again, by the proved library: a good text
 * comes out as it went in.
 *
 *     rewrite [FILE]      FILE, or standard input
 *     rewrite --check     checks what colliemist.h promises of the reader and
 *                         of the writer; says so
 *
 * A text that is refused puts nothing on standard output and `refused=R line=L`
 * on standard error, and fails.
 */
#include "trial.h"

#define MARGIN 64
#define SOME_NUMBER 0xA5A5A5A5u
#define SOME_LINE 77

#define LENGTH(row) (sizeof (row) / sizeof (row)[0])

/* The rows and numbers lent to the library. */
static uint32_t entries[COLLIEMIST_ENTRIES + MARGIN];
static uint32_t claimants, ceiling;
static size_t line;
static uint8_t out[2 * COLLIEMIST_TEXT_BYTES];

/* A schedule with an entry of each kind, and its text for 65 claimants, which
 * no table has, and ceiling 0. */
static const uint32_t few[] = {0x01FFFFFF, 0, 0x020A0000, 0x01000000};
static const char *few_text =
    "claimants=65\nceiling=0\n"
    "do=ask 255 65535\ndo=step 0\ndo=leave 10\ndo=ask 0 0\n";

/* A schedule longer than a text's; all are steps of claimant 1 at first. */
static uint32_t many[COLLIEMIST_ENTRIES + 3];

/* What the library reads of a text, all that is lent filled before. */
static int64_t read_of(const void *bytes, size_t length, size_t room)
{
    memset(entries, FILLER, sizeof entries);
    claimants = ceiling = SOME_NUMBER;
    line = SOME_LINE;
    return colliemist_read(bytes, length, entries, room, &claimants, &ceiling, &line);
}

/* Whether a text is refused so, and all but the line is as it was. */
static int unread(const void *bytes, size_t length, size_t room, int64_t answer, size_t at_line)
{
    return read_of(bytes, length, room) == answer && line == at_line
        && untouched(entries, sizeof entries, 0)
        && claimants == SOME_NUMBER && ceiling == SOME_NUMBER;
}

/* What the library writes of a schedule, the row filled before. */
static int64_t written_of(uint32_t of, uint32_t under, const uint32_t *schedule, size_t count, size_t room)
{
    memset(out, FILLER, sizeof out);
    return colliemist_write(of, under, schedule, count, out, room);
}

/* Whether a schedule is refused so, and nothing is written. */
static int unwritten(uint32_t of, const uint32_t *schedule, size_t count, size_t room, int64_t answer)
{
    return written_of(of, 4294967295, schedule, count, room) == answer
        && untouched(out, sizeof out, 0);
}

/* Whether the row has a string and is else as it was. */
static int holds(int64_t length, const char *string)
{
    return length == (int64_t)strlen(string) && memcmp(out, string, strlen(string)) == 0
        && untouched(out, sizeof out, strlen(string));
}

/* Puts lines into the text; their length with what is there already. */
static size_t append(size_t length, const char *string, size_t times)
{
    for (size_t time = 0; time < times; time++) {
        memcpy(text + length, string, strlen(string));
        length += strlen(string);
    }
    return length;
}

static void check_good_texts(void)
{
    const size_t rooms[] = {COLLIEMIST_ENTRIES, COLLIEMIST_ENTRIES + 1, LENGTH(entries)};
    for (size_t at = 0; at < LENGTH(rooms); at++) {
        int64_t count = read_of(few_text, strlen(few_text), rooms[at]);
        expect(count == (int64_t)LENGTH(few), "the entries are counted");
        expect(memcmp(entries, few, sizeof few) == 0, "the entries come first");
        expect(untouched(entries, sizeof entries, sizeof few), "places past the entries are as they were");
        expect(claimants == 65 && ceiling == 0 && line == 0, "65 claimants are read, and no line refused");
    }
    const char *none = "claimants=0\nceiling=4294967295\n";
    expect(read_of(none, strlen(none), COLLIEMIST_ENTRIES) == 0, "no entry is counted");
    expect(untouched(entries, sizeof entries, 0), "no entry is put into the row");
    expect(claimants == 0 && ceiling == 4294967295 && line == 0, "0 claimants are read");
}

static void check_bad_texts(void)
{
    const size_t rooms[] = {COLLIEMIST_ENTRIES, COLLIEMIST_ENTRIES + 1, LENGTH(entries)};
    for (size_t at = 0; at < LENGTH(rooms); at++) {
        expect(unread("", 0, rooms[at], -12, 1), "line 1 is missing");
        expect(unread("claimants=1\n", 12, rooms[at], -12, 2), "line 2 is missing");
        expect(unread(few_text, strlen(few_text) - 1, rooms[at], -12, 6), "the last line has no end");
        memset(text, 'x', sizeof text);
        expect(unread(text, sizeof text - 1, rooms[at], -12, 1), "32768 bytes are read");
        expect(unread(text, sizeof text, rooms[at], -11, 0), "32769 bytes are too many");
        size_t length = append(0, "claimants=1\nceiling=1\n", 1);
        length = append(length, "do=step 1\n", COLLIEMIST_ENTRIES);
        expect(read_of(text, length, rooms[at]) == COLLIEMIST_ENTRIES, "2048 do lines are read");
        length = append(length, "do=step 1\n", 1);
        expect(unread(text, length, rooms[at], -13, 2051), "2049 do lines are too many");
        expect(unread(text, length - 1, rooms[at], -12, 2051), "12 comes before 13 in a line");
    }
}

/* Refusal 10 comes first. */
static void check_short_rows(void)
{
    const size_t rooms[] = {0, 1, LENGTH(few), COLLIEMIST_ENTRIES - 1};
    for (size_t at = 0; at < LENGTH(rooms); at++) {
        expect(unread(few_text, strlen(few_text), rooms[at], -10, 0), "a short row, a good text");
        expect(unread("x", 1, rooms[at], -10, 0), "a short row, a bad text");
        memset(text, 'x', sizeof text);
        expect(unread(text, sizeof text, rooms[at], -10, 0), "a short row, a long text");
    }
}

static void check_good_schedules(void)
{
    size_t needed = strlen(few_text);
    const size_t rooms[] = {needed, needed + 1, COLLIEMIST_TEXT_BYTES, sizeof out};
    for (size_t at = 0; at < LENGTH(rooms); at++) {
        int64_t length = written_of(65, 0, few, LENGTH(few), rooms[at]);
        expect(holds(length, few_text), "a schedule has its text, and bytes past it are as they were");
    }
    for (size_t room = 0; room < needed; room++) {
        expect(written_of(65, 0, few, LENGTH(few), room) == -11, "a short row gets 11");
        expect(untouched(out, sizeof out, 0), "a short row is not touched");
    }
    int64_t length = written_of(0, 4294967295, few, 0, sizeof out);
    expect(holds(length, "claimants=0\nceiling=4294967295\n"), "0 claimants and no entry have a text");
    length = written_of(4294967295, 10, few, 0, sizeof out);
    expect(holds(length, "claimants=4294967295\nceiling=10\n"), "any number of claimants has a text");
}

/* Refusals 9, 13 and 11, in this order, whatever the room. */
static void check_order(void)
{
    const size_t rooms[] = {0, 1, COLLIEMIST_TEXT_BYTES, sizeof out};
    const uint32_t barred[] = {0x00000001, 0x0001FFFF, 0x02000001, 0x0202FFFF, 0x03000000, 0xFFFFFFFF};
    const size_t places[] = {0, COLLIEMIST_ENTRIES - 1, COLLIEMIST_ENTRIES, LENGTH(many) - 1};
    for (size_t at = 0; at < LENGTH(many); at++)
        many[at] = 0x00010000;
    for (size_t at = 0; at < LENGTH(rooms); at++) {
        expect(unwritten(1, many, COLLIEMIST_ENTRIES + 1, rooms[at], -13), "2049 entries are too many");
        expect(unwritten(1, many, LENGTH(many), rooms[at], -13), "2051 entries are too many");
        for (size_t kind = 0; kind < LENGTH(barred) * LENGTH(places); kind++) {
            size_t place = places[kind % LENGTH(places)];
            many[place] = barred[kind / LENGTH(places)];
            expect(unwritten(1, many, place + 1, rooms[at], -9), "a barred entry, the last");
            expect(unwritten(1, many, LENGTH(many), rooms[at], -9), "a barred entry, of too many");
            many[place] = 0x00010000;
        }
    }
    expect(unwritten(1, many, COLLIEMIST_ENTRIES, 0, -11), "2048 entries are not too many");
    int64_t length = written_of(1, 1, many, COLLIEMIST_ENTRIES, sizeof out);
    expect(length == 22 + 10 * COLLIEMIST_ENTRIES, "2048 entries are written");
}

/* The longest text, which has lines of 16 bytes, and one a byte longer. */
static void check_longest(void)
{
    const size_t count = 2046;
    for (size_t at = 0; at < count; at++)
        many[at] = 0x010AFFFF;
    const size_t rooms[] = {COLLIEMIST_TEXT_BYTES, COLLIEMIST_TEXT_BYTES + 1, sizeof out};
    for (size_t at = 0; at < LENGTH(rooms); at++) {
        expect(unwritten(100, many, count, rooms[at], -11), "32769 bytes are not written");
        int64_t length = written_of(64, 4294967295, many, count, rooms[at]);
        expect(length == COLLIEMIST_TEXT_BYTES, "32768 bytes are written");
        expect(untouched(out, sizeof out, COLLIEMIST_TEXT_BYTES), "and no byte past them");
        expect(read_of(out, COLLIEMIST_TEXT_BYTES, COLLIEMIST_ENTRIES) == (int64_t)count, "they are read");
        expect(memcmp(entries, many, count * sizeof many[0]) == 0, "and give the same schedule");
        expect(claimants == 64 && ceiling == 4294967295 && line == 0, "and the same two numbers");
    }
    expect(unwritten(64, many, count, COLLIEMIST_TEXT_BYTES - 1, -11), "a byte too few");
}

static int check(void)
{
    check_good_texts();
    check_bad_texts();
    check_short_rows();
    check_good_schedules();
    check_order();
    check_longest();
    return verdict("rewrite");
}

static int rewrite(size_t length)
{
    int64_t count = colliemist_read(text, length, entries, LENGTH(entries), &claimants, &ceiling, &line);
    if (count < 0) {
        fprintf(stderr, "refused=%lld line=%zu\n", (long long)-count, line);
        return EXIT_FAILURE;
    }
    int64_t written = colliemist_write(claimants, ceiling, entries, (size_t)count, out, sizeof out);
    if (written < 0) {
        fprintf(stderr, "rewrite: what was read is refused: %lld\n", (long long)-written);
        return EXIT_FAILURE;
    }
    return put("rewrite", out, (size_t)written);
}

int main(int argc, char **argv)
{
    return trial("rewrite", argc, argv, check, rewrite);
}
