/* Prints the report of a case text, by the proved library.
 *
 *     report [FILE]      of FILE, or of standard input
 *     report --check     checks what colliemist.h promises of the row; says so
 */
#include "trial.h"

#define MARGIN 4096

static uint8_t out[COLLIEMIST_REPORT_BYTES + MARGIN];

/* The library's report of a string, into a row of out_len filled bytes. */
static uint64_t report_of(const char *string, size_t out_len)
{
    memset(out, FILLER, sizeof out);
    return colliemist_report((const uint8_t *)string, strlen(string), out, out_len);
}

static int same(uint64_t length, const char *report)
{
    return length == strlen(report) && memcmp(out, report, length) == 0;
}

static const char *good = "claimants=1\nceiling=1\ndo=ask 1 7\ndo=step 2\n";
static const char *good_report =
    "at=1 who=1 place=1 session=0 raised=0 token=0 answer=1\n"
    "at=2 who=2 place=0 session=0 raised=0 token=0 answer=36\n"
    "end=2\n";
static const char *bad = "claimants=1\nceiling=1\ndo=ask 1 07\n";
static const char *bad_report = "refused=12 line=3\n";

static void check_long_rows(void)
{
    const size_t lengths[] = {COLLIEMIST_REPORT_BYTES, COLLIEMIST_REPORT_BYTES + 1, sizeof out};
    for (size_t at = 0; at < sizeof lengths / sizeof lengths[0]; at++) {
        uint64_t length = report_of(good, lengths[at]);
        expect(same(length, good_report), "a good text has its report");
        expect(untouched(out, sizeof out, strlen(good_report)), "bytes past a report are as they were");
        length = report_of(bad, lengths[at]);
        expect(same(length, bad_report), "a bad text has its report");
        expect(untouched(out, sizeof out, strlen(bad_report)), "bytes past a refusal are as they were");
        length = report_of("", lengths[at]);
        expect(same(length, "refused=12 line=1\n"), "an empty text has its report");
    }
}

static void check_short_rows(void)
{
    const size_t lengths[] = {0, 1, 18, COLLIEMIST_REPORT_BYTES - 1};
    for (size_t at = 0; at < sizeof lengths / sizeof lengths[0]; at++) {
        expect(report_of(good, lengths[at]) == 0, "a short row gets 0");
        expect(untouched(out, sizeof out, 0), "a short row is not touched");
        expect(report_of(bad, lengths[at]) == 0, "a short row gets 0, a bad text too");
        expect(untouched(out, sizeof out, 0), "a short row is not touched, a bad text too");
    }
}

/* The most bytes a text may have, and one more. */
static void check_long_texts(void)
{
    memset(text, 'x', sizeof text);
    memset(out, FILLER, sizeof out);
    uint64_t length = colliemist_report(text, sizeof text, out, sizeof out);
    expect(same(length, "refused=11 line=0\n"), "a long text is refused");
    memset(out, FILLER, sizeof out);
    length = colliemist_report(text, sizeof text - 1, out, sizeof out);
    expect(same(length, "refused=12 line=1\n"), "a text of 32768 bytes is read");
}

static int check(void)
{
    check_long_rows();
    check_short_rows();
    check_long_texts();
    return verdict("report");
}

static int print(size_t length)
{
    return put("report", out, colliemist_report(text, length, out, sizeof out));
}

int main(int argc, char **argv)
{
    return trial("report", argc, argv, check, print);
}
