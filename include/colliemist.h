/* Colliemist for C: what the program `boardcase` prints for a case text, and
 * case texts read and written.
 *
 * Link with libcolliemist.a, which `./archive` writes, for processors of
 * x86-64 from its version 2 on.
 * No pointer may be NULL, also where there are 0 bytes or numbers behind it.
 */
#ifndef COLLIEMIST_H
#define COLLIEMIST_H

#include <stddef.h>
#include <stdint.h>

#ifdef __cplusplus
extern "C" {
#endif

/* The bytes that a row must have to take any report. */
#define COLLIEMIST_REPORT_BYTES 153609

/* The most bytes that a case text has, and the most entries of its schedule. */
#define COLLIEMIST_TEXT_BYTES 32768
#define COLLIEMIST_ENTRIES 2048

/* Writes what `boardcase` prints for a case text, and returns its number of
 * bytes, which is at least 1 and at most COLLIEMIST_REPORT_BYTES.
 *
 * text, text_len: any bytes at all, of any number. A text that breaks the
 *     layout, is too long or asks for a table that can't be opened has a
 *     report too: one line `refused=R line=L`.
 * out, out_len: the row that takes the report, out_len bytes, apart from text.
 *     The report is in its first bytes and has no NUL at its end; the bytes
 *     past it are as they were.
 *
 * If out_len is less than COLLIEMIST_REPORT_BYTES, it returns 0 and writes
 * nothing, whatever the text.
 *
 * The same text always has the same report. Both pointers must point to so
 * many bytes, and nobody may change them during the call; that is all that is
 * asked of the caller.
 */
uint64_t colliemist_report(const uint8_t *text, size_t text_len,
                           uint8_t *out, size_t out_len);

/* Reads a case text, and returns the number of its schedule's entries, which is
 * at most COLLIEMIST_ENTRIES.
 *
 * text, text_len: any bytes at all, of any number.
 * entries, room: the row that takes the schedule, room numbers. The entries are
 *     in its first places, each kind * 16777216 + claimant * 65536 + session,
 *     where kind 0 is step, 1 ask and 2 leave; the places past them are as they
 *     were.
 * claimants, ceiling: take the numbers of lines 1 and 2, whatever they are: a
 *     text with 0 or 65 claimants is a text.
 * line: takes 0.
 *
 * If the text is refused, it returns minus the refusal's number; the row,
 * *claimants and *ceiling are as they were, and *line is the line that is
 * refused, counted from 1, or 0. The first of these that is so, the lines taken
 * from the top:
 *     -10 if room is less than COLLIEMIST_ENTRIES, whatever the text; line 0
 *     -11 if text_len is more than COLLIEMIST_TEXT_BYTES; line 0
 *     -12 if a line breaks the layout
 *     -13 if a line is a good do line after COLLIEMIST_ENTRIES of them
 *
 * The same text is always read alike. The pointers must point to so many bytes
 * or numbers, claimants, ceiling and line to one each, all of them apart from
 * each other, and nobody may change them during the call; that is all that is
 * asked of the caller.
 */
int64_t colliemist_read(const uint8_t *text, size_t text_len,
                        uint32_t *entries, size_t room,
                        uint32_t *claimants, uint32_t *ceiling, size_t *line);

/* Writes the case text of a schedule, and returns its number of bytes, which is
 * at least 22 and at most COLLIEMIST_TEXT_BYTES. Reading it gives the same
 * claimants, ceiling and schedule; and what was read from a text is written as
 * that text again, byte for byte.
 *
 * claimants, ceiling: any numbers at all, also those of a table that can't be
 *     opened.
 * schedule, entries: the schedule, entries numbers as colliemist_read gives
 *     them; of any number.
 * out, room: the row that takes the text, room bytes, apart from schedule. The
 *     text is in its first bytes and has no NUL at its end; the bytes past it
 *     are as they were.
 *
 * If there is no such text, it returns minus the refusal's number and writes
 * nothing. The first of these that is so:
 *     -9 if an entry, also one past COLLIEMIST_ENTRIES, is of a kind over 2, or
 *         of kind 0 or 2 and has a session other than 0
 *     -13 if entries is more than COLLIEMIST_ENTRIES
 *     -11 if the text would have more than COLLIEMIST_TEXT_BYTES bytes, or more
 *         than room
 *
 * The same numbers always have the same text. Both pointers must point to so
 * many numbers or bytes, and nobody may change them during the call; that is
 * all that is asked of the caller.
 */
int64_t colliemist_write(uint32_t claimants, uint32_t ceiling,
                         const uint32_t *schedule, size_t entries,
                         uint8_t *out, size_t room);

#ifdef __cplusplus
}
#endif

#endif
