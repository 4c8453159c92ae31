/*
 * Xanhupive from C: a request line completed, or its shaking predicted, in 24 measures or at any period from
 * 0.010 to 10.0 s, by the Campbell-Bozorgnia 2008 equations; a list of such lines answered in parts; and such a list
 * as a file, written, read back, and answered record by record.
 * Link libexport.a, which `c/libraries export` writes, and nothing beside it but the C library's memcpy and
 * memset. A valve's controller, short of flash, links libcontroller.a instead, which `c/libraries controller` writes:
 * it has xanhupive_measure alone, and asks for nothing beside it.
 *
 * A request line is the thirteen fields with single spaces between them, without its LF: a figure that was measured
 * is its number, one that the caller inferred, say from a map, has a "~" directly before it and its sign, and a blank
 * one is "-". Which of them were measured and which inferred changes no number of an answer. The line may be any
 * bytes of any length: what is not a request line, or has more than XANHUPIVE_LONGEST_LINE bytes, is refused with
 * number 14. The README has the fields and the table of refusals. Number 26, for a figure that is already marked as
 * estimated by us, comes from no function here: a line cannot mark one.
 *
 * What the comments below promise is proved of the source that is compiled, for every line, every
 * measure, every period and every length: one possible answer, and one possible state of what was lent.
 *
 * How near, for every request that is accepted: ln median and each sigma lie within one in the sixth place,
 * one millionth, of the exact value; the median lies within 1 + Y/500000 of the exact Y, counted in its unit of
 * 10^-10, and is at least 1. Of a spectrum that is the theorem `accepted-rows`, of the lines that
 * xanhupive_predict_line and a list in parts write of one `accepted_shown`, of one measure `accepted_measure`, of one
 * period `accepted_period`; docs/ASSURANCE.md says where they stand.
 *
 * What a caller owes, which nothing here can test:
 *   - A pointer and its length are of one block that may be read, and where it is no pointer to const
 *     written. With length 0 any pointer will do, NULL too: nothing is read or written there.
 *   - `median`, `total` and a `rows` or `row` of some length are aligned as a double is, `took`, `wrote` and
 *     `count` as a uint64_t is, and none of these single numbers is NULL.
 *   - What is lent to be written shares no byte with anything else that is lent to the same call, and
 *     no other thread touches it meanwhile.
 *   - Lent bytes and numbers hold values already, whatever they are, as after a memset.
 *
 * No function keeps anything between calls or allocates, so that any number of threads may call at
 * once. What a list in parts needs from call to call stands in the reader that the caller lends.
 */
#ifndef XANHUPIVE_H
#define XANHUPIVE_H

#include <stddef.h>
#include <stdint.h>

#ifdef __cplusplus
extern "C" {
#endif

/* The most bytes that a request line may have before its LF. No request has more than 105. */
#define XANHUPIVE_LONGEST_LINE 115

/* Bytes that are enough for any answer of xanhupive_complete_line, its LF counted. */
#define XANHUPIVE_LONGEST_COMPLETION 38

/* Bytes that are enough for any answer of either sheet, its LFs counted. */
#define XANHUPIVE_LONGEST_ANSWER 912

/*
 * Measures: 0 to 20 the periods from 0.010 to 10.0 s, 21 PGA, 22 PGV, 23 PGD. Of measures 0 to 8, the periods
 * up to 0.25 s, ln median and median are PGA's where their own are lower; the sigmas are always their own.
 */
#define XANHUPIVE_MEASURES 24

/* Numbers of a row: ln median, median, and the sigmas intra-event, inter-event, total, arbitrary. */
#define XANHUPIVE_COLUMNS 6

/* Numbers of a spectrum. */
#define XANHUPIVE_NUMBERS 144

/* Any period from the shortest tabulated one to the longest may be asked for, in thousandths of a second. */
#define XANHUPIVE_SHORTEST_PERIOD 10
#define XANHUPIVE_LONGEST_PERIOD 10000

/* The refusals that are not of the request itself. */
#define XANHUPIVE_MALFORMED 14
#define XANHUPIVE_NO_MEASURE 15
#define XANHUPIVE_TOO_LONG 16
#define XANHUPIVE_NO_PERIOD 17
#define XANHUPIVE_NO_FILE 19
#define XANHUPIVE_FILE_LENGTH 20
#define XANHUPIVE_FILE_FIELD 21

/* Bytes of a reader. */
#define XANHUPIVE_READER 116

/* Bytes of a file's head, bytes of a record, and the most records that a file has. */
#define XANHUPIVE_FILE_HEAD 7
#define XANHUPIVE_RECORD 65
#define XANHUPIVE_MOST_RECORDS 65535

/* The sheets of a list in parts and of a record: the completing program's answers, and the predicting program's. */
#define XANHUPIVE_COMPLETION 0
#define XANHUPIVE_PREDICTION 1

/* A call that is wrong in itself: no refusal, and nothing was done. */
#define XANHUPIVE_MISUSE 255

/*
 * Bytes of stack that a call of each function uses at most, below its caller's stack pointer and with its return
 * address, in libexport.a on x86-64; the last is that of xanhupive_measure in libcontroller.a.
 *
 * They are not proved, since the proof is about a machine without a stack. bench/stack.py takes them from the machine
 * code, the deepest way through it, without what memcpy and memset use; it says what it takes from the source. c/stack
 * measures them, that counted too, by painting a stack and calling with some 27000 lines of every kind: no call goes
 * deeper.
 *
 * They grow neither with a list nor with the length of a line. What calls itself does so a fixed number of times at
 * most: the square root, by quarters of its number, stands on the stack 33 times, the series of the sine 8 times, the
 * digits of a number 20 times.
 */
#define XANHUPIVE_STACK_COMPLETE_LINE 3760
#define XANHUPIVE_STACK_PREDICT_LINE 5168
#define XANHUPIVE_STACK_MEASURE 1808
#define XANHUPIVE_STACK_SPECTRUM 5440
#define XANHUPIVE_STACK_PERIOD 2432
#define XANHUPIVE_STACK_READER_BEGIN 8
#define XANHUPIVE_STACK_TAKE_PART 5472
#define XANHUPIVE_STACK_CLOSE 96
#define XANHUPIVE_STACK_PACK 984
#define XANHUPIVE_STACK_UNPACK 1096
#define XANHUPIVE_STACK_FILE_RECORDS 696
#define XANHUPIVE_STACK_RECORD_SPECTRUM 5440
#define XANHUPIVE_STACK_RECORD_ANSWER 5184
#define XANHUPIVE_STACK_CONTROLLER 1216

/*
 * The completing program's answer: "ok", the five figures and their letters, m for measured, i for inferred, e for
 * estimated by us, or "no" and the refusal's number, with its LF and no NUL.
 *
 * Returns how many bytes of the answer now stand at the start of `out`; those behind it are as they
 * were. Returns 0 exactly when the answer is longer than `out_length` (refusal 16), and then no byte
 * has changed. Never with XANHUPIVE_LONGEST_COMPLETION bytes or more.
 */
size_t xanhupive_complete_line(const uint8_t *line, size_t line_length, uint8_t *out, size_t out_length);

/*
 * The predicting program's answer: 24 lines, each of measure number, ln median, median and total sigma,
 * or one line of "no" and the refusal's number, with the LFs and no NUL.
 *
 * Returns and leaves what xanhupive_complete_line does. Never 0 with XANHUPIVE_LONGEST_ANSWER bytes or
 * more.
 */
size_t xanhupive_predict_line(const uint8_t *line, size_t line_length, uint8_t *out, size_t out_length);

/*
 * One measure of a request, without working out the others.
 *
 * Returns 0, with the median in 10^-10 of g, cm/s or cm in `*median`, and the total sigma in millionths
 * in `*total`. Each is a whole number, the double exactly that number.
 * Or returns the refusal's number, and both are as they were: 14 for a malformed line, 1 to 13 or 18 for
 * a request that is refused, else 15 for a measure above 23.
 */
uint32_t xanhupive_measure(const uint8_t *line, size_t line_length, uint64_t measure, double *median, double *total);

/*
 * All 24 measures of a request.
 *
 * Returns 0, with row k in rows[6 * k] to rows[6 * k + 5], in the order of XANHUPIVE_COLUMNS, ln median
 * and sigmas in millionths, the median as above, each double exactly that whole number. Numbers from
 * rows[144] on are as they were.
 * Or returns the refusal's number, and no number has changed: 14 for a malformed line, 1 to 13 or 18 for
 * a request that is refused, else 16 where `rows_length`, counted in doubles, is below XANHUPIVE_NUMBERS.
 */
uint32_t xanhupive_spectrum(const uint8_t *line, size_t line_length, double *rows, size_t rows_length);

/*
 * The row at one period, in thousandths of a second, without working out the spectrum.
 *
 * At the period of a measure from 0 to 20 it is that measure's row in xanhupive_spectrum, number for number.
 * Between two of these periods ln median and each sigma lie on the straight line over the logarithm of the
 * period between the two rows, and the median is the exponential of that ln median, all as near as in the spectrum.
 *
 * Returns 0, with the row in row[0] to row[5], in the order of XANHUPIVE_COLUMNS and the units of
 * xanhupive_spectrum, each double exactly a whole number between two tabulated periods too: ln median and
 * sigmas are whole numbers of millionths, as in all rows. Numbers from row[6] on are as they were.
 * Or returns the refusal's number, and no number has changed: 14 for a malformed line, 1 to 13 or 18 for
 * a request that is refused, else 17 for a period that is not from XANHUPIVE_SHORTEST_PERIOD to
 * XANHUPIVE_LONGEST_PERIOD, else 16 where `row_length`, counted in doubles, is below XANHUPIVE_COLUMNS.
 */
uint32_t xanhupive_period(const uint8_t *line, size_t line_length, uint64_t period, double *row, size_t row_length);

/*
 * A list of request lines, each with its LF, in parts cut at any place: a part may be empty, and hold
 * pieces of lines and whole ones. The answer lines that are written, one call after the other, are those
 * of the list as a whole, however it was cut and whatever room was lent; the completing program's header
 * is not among them.
 *
 * The reader is XANHUPIVE_READER bytes that the caller keeps, at any place and aligned as it likes. They
 * may be copied, stored and sent, and read on another machine; another release may have other readers.
 * Bytes of a line that was answered may stand there until the list is closed.
 * Whatever stands in them, they are some reader: a reader that was overwritten answers other lines, and
 * nothing worse comes of it.
 *
 *     xanhupive_reader_begin(reader, sizeof reader);
 *     for each part: while some of it is left:
 *         xanhupive_take_part(reader, sizeof reader, XANHUPIVE_COMPLETION, part, part_length,
 *                             out, sizeof out, &took, &wrote);
 *         write `wrote` bytes of `out` out, and go on `took` bytes further in the part
 *     xanhupive_close(reader, sizeof reader, out, sizeof out, &wrote);
 *
 * A call that does not return 0 leaves all that was lent as it was. On 16 the caller offers the same
 * bytes again with more room. With room for the sheet's longest answer no call gives 16, and each takes
 * a byte at least of a part that has one: so the loop above ends.
 */

/*
 * Makes a reader before the first byte of a list.
 *
 * Returns 0, or XANHUPIVE_MISUSE where `reader_length` is below XANHUPIVE_READER.
 */
uint32_t xanhupive_reader_begin(uint8_t *reader, size_t reader_length);

/*
 * Takes a part of a list, and writes the answers to the lines that end in it, as many as fit.
 *
 * Returns 0, with how many bytes of the part were taken in `*took`, and how many bytes of `out` were
 * written from its start in `*wrote`. All of the part is taken, or the bytes before the LF of the first
 * line whose answer does not fit behind those written. A part without an LF is always taken whole.
 * Or returns 16, exactly where nothing was written and the answer at the first LF is longer than
 * `out_length`; no byte is taken then, and the reader, `out` and both numbers are as they were.
 * Or returns XANHUPIVE_MISUSE, where `reader_length` is below XANHUPIVE_READER or `sheet` is no sheet's
 * number. One list may change its sheet from call to call.
 */
uint32_t xanhupive_take_part(uint8_t *reader, size_t reader_length, uint64_t sheet, const uint8_t *part,
                             size_t part_length, uint8_t *out, size_t out_length, uint64_t *took, uint64_t *wrote);

/*
 * Ends a list: a last line without its LF is answered with "no 14", however long it is.
 *
 * Returns 0, with how many bytes of `out` were written in `*wrote`, 6 or none; the reader is as
 * xanhupive_reader_begin makes one, ready for another list.
 * Or returns 16, exactly where that answer is longer than `out_length`; the reader, `out` and `*wrote`
 * are as they were.
 * Or returns XANHUPIVE_MISUSE where `reader_length` is below XANHUPIVE_READER.
 */
uint32_t xanhupive_close(uint8_t *reader, size_t reader_length, uint8_t *out, size_t out_length, uint64_t *wrote);

/*
 * A list of request lines, each with its LF, as a file, and back: what the programs pack and unpack do.
 *
 * The file: the mark "GMQ"; a 16-bit version, 1; a 16-bit count of records; then the records. A record is thirteen
 * 32-bit signed numbers in the order of the line's fields, the lowest such number for a blank field; then thirteen bytes,
 * 0 for a field that was measured, 1 for one that was inferred, 3 for a blank one. All numbers stand high byte first.
 * A list that is written and read back is the same bytes, and so is a file that is read and written again.
 */

/*
 * Writes the file of a list.
 *
 * Returns 0, with how many bytes of `file` were written from its start in `*wrote`: XANHUPIVE_FILE_HEAD, and
 * XANHUPIVE_RECORD for each line. Those behind are as they were. An empty list has a file of 7 bytes.
 * Or returns a refusal's number, and all is as it was: 14 where some line is malformed, or the last one has no LF;
 * else 20 for more than XANHUPIVE_MOST_RECORDS lines; else 16 where the file is longer than `file_length`. Nothing else
 * of a request is tested: one that every prediction refuses has a record like any other.
 */
uint32_t xanhupive_pack(const uint8_t *list, size_t list_length, uint8_t *file, size_t file_length, uint64_t *wrote);

/*
 * Writes the list of a file.
 *
 * Returns 0, with how many bytes of `list` were written from its start in `*wrote`, 26 to 106 for each record. Those
 * behind are as they were.
 * Or returns a refusal's number, and all is as it was: 19 for another mark or version or fewer than 5 bytes; else 20
 * where `file_length` is not what the count says; else 21 where some field of some record holds a number that no line
 * could hold there (more than six digits, below 0 elsewhere than in rake and azimuth), is blank in one of its number
 * and its origin and not in the other, or has an origin other than 0, 1 and 3; else 16 where the list is longer than
 * `list_length`.
 */
uint32_t xanhupive_unpack(const uint8_t *file, size_t file_length, uint8_t *list, size_t list_length, uint64_t *wrote);

/*
 * Looks a file through, so that its records can be answered one by one: record k, numbered from 0, begins at
 * file[XANHUPIVE_FILE_HEAD + XANHUPIVE_RECORD * k].
 *
 * Returns 0, with how many records it has in `*count`; or 19, 20 or 21 as xanhupive_unpack does, and `*count` is as it
 * was.
 */
uint32_t xanhupive_file_records(const uint8_t *file, size_t file_length, uint64_t *count);

/*
 * All 24 measures of a record's request: what xanhupive_spectrum gives for its line. Of the record only the first
 * XANHUPIVE_RECORD bytes are read, so that `record_length` may be all that follows in the file.
 *
 * Returns 0, with the rows as xanhupive_spectrum leaves them. Or returns the refusal's number, and no number has
 * changed: 21 for a field as xanhupive_unpack has it, 1 to 13 or 18 for a request that is refused, else 16 where
 * `rows_length` is below XANHUPIVE_NUMBERS; or XANHUPIVE_MISUSE where `record_length` is below XANHUPIVE_RECORD.
 */
uint32_t xanhupive_record_spectrum(const uint8_t *record, size_t record_length, double *rows, size_t rows_length);

/*
 * The answer to a record's request as lines of text, as the sheet shows it: what xanhupive_complete_line or
 * xanhupive_predict_line gives for its line, "no" and a number too.
 *
 * Returns 0, with how many bytes of `out` were written from its start in `*wrote`. Or returns a number, and all is as
 * it was: 21 for a field, 16 where the answer is longer than `out_length`, or XANHUPIVE_MISUSE where `record_length` is
 * below XANHUPIVE_RECORD or `sheet` is no sheet's number.
 */
uint32_t xanhupive_record_answer(const uint8_t *record, size_t record_length, uint64_t sheet, uint8_t *out,
                                 size_t out_length, uint64_t *wrote);

#ifdef __cplusplus
}
#endif

#endif
