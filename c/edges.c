/* Calls at the edges of what xanhupive.h promises: NULL with length 0, every length that is too short,
 * numbers and bytes around the lent part, the order of the refusals. Whatever is lent ends at a page
 * that may not be touched, so that a byte read or written past it ends the run. */
#include "checks.h"

#include <string.h>

#include "xanhupive.h"

static const uint8_t *line;
static size_t length;

/* A request line at the end of a page. */
static void request(uint8_t *end, const char *text)
{
    length = strlen(text);
    memcpy(end - length, text, length);
    line = end - length;
}

typedef size_t answer_function(const uint8_t *, size_t, uint8_t *, size_t);

/* Every length up to the answer's: refused, no byte changed. Its own, and more: written, the bytes
 * around it as they were. */
static void every_length(answer_function *answer, const char *text, size_t bytes, uint8_t *end)
{
    const uint8_t mark = 0xa5;
    const size_t around = 64;
    for (size_t lent = 0; lent < bytes; lent++) {
        memset(end - lent - around, mark, lent + around);
        expect(answer(line, length, end - lent, lent) == 0, "a short buffer gives 0");
        expect(all_are(end - lent - around, end, mark), "a short buffer is as it was");
    }
    for (size_t more = 0; more <= around; more += around) {
        uint8_t *out = end - bytes - more;
        memset(out - around, mark, around + bytes + more);
        expect(answer(line, length, out, bytes + more) == bytes, "an answer has its length");
        expect(memcmp(out, text, bytes) == 0, "an answer has its bytes");
        expect(all_are(out - around, out, mark), "the bytes before are as they were");
        expect(all_are(out + bytes, end, mark), "the bytes behind are as they were");
    }
}

static void null_with_length_0(uint8_t *end)
{
    uint8_t out[8] = {0};
    expect(xanhupive_complete_line(NULL, 0, out, sizeof out) == 6 && memcmp(out, "no 14\n", 7) == 0, "the empty line completed");
    memset(out, 0, sizeof out);
    expect(xanhupive_predict_line(NULL, 0, out, sizeof out) == 6 && memcmp(out, "no 14\n", 7) == 0, "the empty line predicted");
    double median = -1.0;
    double total = -2.0;
    expect(xanhupive_measure(NULL, 0, 21, &median, &total) == XANHUPIVE_MALFORMED, "a measure of the empty line");
    expect(median == -1.0 && total == -2.0, "a refused measure changes nothing");
    expect(xanhupive_spectrum(NULL, 0, NULL, 0) == XANHUPIVE_MALFORMED, "14 comes before 16");
    expect(xanhupive_period(NULL, 0, 370, NULL, 0) == XANHUPIVE_MALFORMED, "a period of the empty line");

    request(end, "650 0 760 - 10000 - 3000 4000 30 - - - 2000");
    expect(xanhupive_complete_line(line, length, NULL, 0) == 0, "no room to complete");
    expect(xanhupive_predict_line(line, length, NULL, 0) == 0, "no room to predict");
    expect(xanhupive_spectrum(line, length, NULL, 0) == XANHUPIVE_TOO_LONG, "no room for a spectrum");
    expect(xanhupive_period(line, length, 370, NULL, 0) == XANHUPIVE_TOO_LONG, "no room for a row");
    expect(xanhupive_period(line, length, 9, NULL, 0) == XANHUPIVE_NO_PERIOD, "17 comes before 16");
    request(end, "851 0 760 - 10000 - 3000 4000 30 - - - 2000");
    expect(xanhupive_spectrum(line, length, NULL, 0) == 2, "2 comes before 16");
    expect(xanhupive_period(line, length, 9, NULL, 0) == 2, "2 comes before 17 and 16");
}

static void one_measure(uint8_t *end)
{
    const uint64_t nan_bits = UINT64_C(0x7ff800000000abcd);
    double median;
    double total;
    uint64_t bits;
    memcpy(&median, &nan_bits, sizeof median);
    total = -0.0;
    request(end, "650 0 760 - 10000 - 3000 4000 30 - - - 2000");
    expect(xanhupive_measure(line, length, 24, &median, &total) == XANHUPIVE_NO_MEASURE, "measure 24");
    expect(xanhupive_measure(line, length, UINT64_MAX, &median, &total) == XANHUPIVE_NO_MEASURE, "the largest measure");
    request(end, "851 0 760 - 10000 - 3000 4000 30 - - - 2000");
    expect(xanhupive_measure(line, length, 24, &median, &total) == 2, "2 comes before 15");
    request(end, "851 0 760 - 10000 - 3000 4000 30 - - - 2000\n");
    expect(xanhupive_measure(line, length, 24, &median, &total) == XANHUPIVE_MALFORMED, "a line with its LF is malformed");
    memcpy(&bits, &median, sizeof bits);
    expect(bits == nan_bits && total == 0.0 && 1.0 / total < 0.0, "a NaN and -0.0 are as they were");
}

static void each_measure(const double *rows)
{
    for (uint64_t k = 0; k < XANHUPIVE_MEASURES; k++) {
        double median = -1.0;
        double total = -1.0;
        expect(xanhupive_measure(line, length, k, &median, &total) == 0, "each measure");
        expect(median == rows[6 * k + 1] && total == rows[6 * k + 4], "a measure alone is that of the spectrum");
    }
}

static void spectrum(uint8_t *end, uint8_t *numbers_end)
{
    const uint8_t mark = 0xa5;
    double *last = (double *)(void *)numbers_end;
    for (size_t lent = 0; lent < XANHUPIVE_NUMBERS; lent++) {
        memset(last - lent - 8, mark, (lent + 8) * sizeof *last);
        request(end, "650 0 760 - 10000 - 3000 4000 30 - - - 2000");
        expect(xanhupive_spectrum(line, length, last - lent, lent) == XANHUPIVE_TOO_LONG, "too few numbers");
        expect(all_are((uint8_t *)(last - lent - 8), numbers_end, mark), "too few numbers are as they were");
    }
    for (size_t more = 0; more <= 8; more += 8) {
        double *rows = last - XANHUPIVE_NUMBERS - more;
        memset(rows - 8, mark, (8 + XANHUPIVE_NUMBERS + more) * sizeof *last);
        request(end, "650 90 300 40 10000 - 3000 0 90 - - - 2000");
        expect(xanhupive_spectrum(line, length, rows, XANHUPIVE_NUMBERS + more) == 10, "a refused request");
        expect(all_are((uint8_t *)(rows - 8), numbers_end, mark), "a refused request changes nothing");
        request(end, "650 0 760 - 10000 - 3000 4000 30 - - - 2000");
        expect(xanhupive_spectrum(line, length, rows, XANHUPIVE_NUMBERS + more) == 0, "a spectrum");
        expect(all_are((uint8_t *)(rows - 8), (uint8_t *)rows, mark), "the numbers before are as they were");
        expect(all_are((uint8_t *)(rows + XANHUPIVE_NUMBERS), numbers_end, mark), "the numbers behind are as they were");
        each_measure(rows);
    }
}

/* A soft site near a large earthquake, where eight periods up to 0.25 s have medians of their own below PGA's. */
static void soft_site(uint8_t *end)
{
    double rows[XANHUPIVE_NUMBERS] = {0};
    const double *pga = rows + 6 * 21;
    request(end, "800 90 150 45 20000 - 1000 0 90 1000 - - 10000");
    expect(xanhupive_spectrum(line, length, rows, XANHUPIVE_NUMBERS) == 0, "a soft site's spectrum");
    for (const double *row = rows; row < rows + 6 * 9; row += 6)
        expect(row[0] == pga[0] && row[1] == pga[1], "a short period below PGA has PGA's median");
    for (const double *row = rows + 6; row < rows + 6 * 9; row += 6)
        expect(row[2] != pga[2] && row[4] != pga[4] && row[5] != pga[5], "and its own sigmas");
    expect(rows[6 * 9] > pga[0] && rows[6 * 9 + 1] > pga[1], "0.30 s has its own median");
    each_measure(rows);
}

/* A line in which field `which` has a "~" before it, all where it is 13. */
static void infer(char *inferred, const char *measured, int which)
{
    for (int k = 0; *measured; k++) {
        if (k == which || which == 13)
            *inferred++ = '~';
        while (*measured && *measured != ' ')
            *inferred++ = *measured++;
        if (*measured)
            *inferred++ = *measured++;
    }
    *inferred = '\0';
}

/* Whether the line has the rows, one measure and one period of these. */
static void same_numbers(const double *rows, const double *row)
{
    double others[XANHUPIVE_NUMBERS] = {0};
    double other[XANHUPIVE_COLUMNS] = {0};
    double median = 0, total = 0;
    expect(xanhupive_spectrum(line, length, others, XANHUPIVE_NUMBERS) == 0, "an inferred figure is read");
    expect(memcmp(rows, others, sizeof others) == 0, "measured or inferred, the spectrum is the same");
    expect(xanhupive_measure(line, length, 21, &median, &total) == 0, "a measure of an inferred figure");
    expect(median == rows[6 * 21 + 1] && total == rows[6 * 21 + 4], "measured or inferred, a measure is the same");
    expect(xanhupive_period(line, length, 370, other, XANHUPIVE_COLUMNS) == 0, "a period of an inferred figure");
    expect(memcmp(row, other, sizeof other) == 0, "measured or inferred, a period is the same");
}

/* A "~" before each figure by itself, and before all of them. */
static void origins(uint8_t *end)
{
    static const char measured[] = "650 -60 300 45 10000 8000 3000 4000 -30 6000 100 200 2000";
    static const char *const malformed[] = {"~", "~-", "~-0", "~~5", "-~5", "~05", "5~", "~-~5", "~1000000"};
    char inferred[sizeof measured + 13];
    double rows[XANHUPIVE_NUMBERS] = {0};
    double row[XANHUPIVE_COLUMNS] = {0};
    request(end, measured);
    expect(xanhupive_spectrum(line, length, rows, XANHUPIVE_NUMBERS) == 0, "a request with every figure given");
    expect(xanhupive_period(line, length, 370, row, XANHUPIVE_COLUMNS) == 0, "a period of it");
    for (int which = 0; which <= 13; which++) {
        infer(inferred, measured, which);
        request(end, inferred);
        same_numbers(rows, row);
    }
    for (size_t k = 0; k < sizeof malformed / sizeof *malformed; k++) {
        char text[100];
        snprintf(text, sizeof text, "650 %s 760 - 10000 - 3000 4000 30 - - - 2000", malformed[k]);
        request(end, text);
        expect(xanhupive_spectrum(line, length, rows, XANHUPIVE_NUMBERS) == XANHUPIVE_MALFORMED, malformed[k]);
    }
}

/* The longest request there is, and lines that are longer. */
static void longest_lines(uint8_t *end)
{
    double rows[XANHUPIVE_NUMBERS] = {0};
    char text[XANHUPIVE_LONGEST_LINE + 2] =
        "~999999 ~-999999 ~999999 ~999999 ~999999 ~999999 ~999999 ~999999 ~-999999 ~999999 ~999999 ~999999 ~999999";
    request(end, text);
    expect(length == 105, "the longest request has 105 bytes");
    expect(xanhupive_spectrum(line, length, rows, XANHUPIVE_NUMBERS) == 1, "the longest request is read");
    for (size_t bytes = 106; bytes <= XANHUPIVE_LONGEST_LINE + 1; bytes++) {
        text[bytes - 1] = '9';
        request(end, text);
        expect(length == bytes, "a longer line");
        expect(xanhupive_spectrum(line, length, rows, XANHUPIVE_NUMBERS) == XANHUPIVE_MALFORMED, "is malformed");
    }
}

/* The periods of measures 0 to 20, in thousandths of a second. */
#define PERIODS 21
static const uint64_t TABULATED[PERIODS] = {
    10, 20, 30, 50, 75, 100, 150, 200, 250, 300, 400, 500, 750, 1000, 1500, 2000, 3000, 4000, 5000, 7500, 10000,
};

/* A line for each refusal of a request. */
static const struct {
    uint32_t number;
    const char *line;
} REFUSED[] = {
    {1, "650 181 760 - 10000 - 3000 4000 30 - - - 2000"},
    {2, "851 0 760 - 10000 - 3000 4000 30 - - - 2000"},
    {3, "650 0 149 - 10000 - 3000 4000 30 - - - 2000"},
    {4, "650 0 760 14 10000 - 3000 4000 30 - - - 2000"},
    {5, "650 0 760 - 0 - 3000 4000 30 - - - 2000"},
    {6, "650 0 760 - 10000 30001 3000 4000 30 - - - 2000"},
    {7, "650 0 760 - 10000 - 15001 4000 30 - - - 2000"},
    {8, "650 0 760 - 10000 - 3000 200001 30 - - - 2000"},
    {9, "650 0 760 - 10000 - 3000 4000 181 - - - 2000"},
    {10, "650 90 300 40 10000 - 3000 0 90 - - - 2000"},
    {11, "650 0 760 - 10000 - 3000 4000 30 200001 - - 2000"},
    {12, "650 0 760 - 10000 - 3000 4000 30 4998 - - 2000"},
    {18, "650 0 760 - 10000 - 3000 4000 30 13603 - - 2000"},
    {13, "650 0 760 - 10000 - 3000 4000 30 - - - 10001"},
    {14, "650 0 760 - 10000 - 3000 4000 30 - - - 2000\n"},
};

/* The longest RRUP that RJB 4000, ZTOR 3000 and W 10000 allow, and a metre more. */
static void longest_distance(uint8_t *end, uint8_t *out_end)
{
    double median = -1.0;
    double total = -1.0;
    request(end, "650 0 760 - 10000 - 3000 4000 30 13602 - - 2000");
    every_length(xanhupive_complete_line, "ok 90 10000 3000 13602 2000 emmmm\n", 34, out_end);
    request(end, "650 0 760 - 10000 - 3000 4000 30 13603 - - 2000");
    every_length(xanhupive_complete_line, "no 18\n", 6, out_end);
    every_length(xanhupive_predict_line, "no 18\n", 6, out_end);
    expect(xanhupive_measure(line, length, 24, &median, &total) == 18 && median == -1.0 && total == -1.0, "18 comes before 15");
    expect(xanhupive_spectrum(line, length, NULL, 0) == 18, "18 comes before 16");
    request(end, "650 0 760 - 10000 - 3000 4000 30 13603 - - 10001");
    expect(xanhupive_spectrum(line, length, NULL, 0) == 18, "18 comes before 13");
}

/* Periods out of range; the lower half of one of them is in it. */
static const uint64_t NO_PERIODS[] = {0, 9, 10001, (UINT64_C(1) << 32) + 370, UINT64_MAX};

#define COUNT(array) (sizeof(array) / sizeof *(array))

/* A period refused in every length of a row, the numbers around it too as they were. */
static void period_refused(uint64_t period, uint32_t refusal, double *last, const char *what)
{
    const uint8_t mark = 0xa5;
    for (size_t lent = 0; lent <= XANHUPIVE_COLUMNS + 2; lent++) {
        double *row = last - lent;
        memset(row - 8, mark, (lent + 8) * sizeof *last);
        expect(xanhupive_period(line, length, period, row, lent) == refusal, what);
        expect(all_are((uint8_t *)(row - 8), (uint8_t *)last, mark), "a refused period changes nothing");
    }
}

/* The request's refusals come before the period's, and that before the row's. */
static void period_refusals(uint8_t *end, double *last)
{
    for (size_t n = 0; n < COUNT(REFUSED); n++) {
        request(end, REFUSED[n].line);
        period_refused(370, REFUSED[n].number, last, "a refused request at a period");
        for (size_t k = 0; k < COUNT(NO_PERIODS); k++)
            period_refused(NO_PERIODS[k], REFUSED[n].number, last, "the request's refusal comes before the period's");
    }
    request(end, "650 0 760 - 10000 - 3000 4000 30 - - - 2000");
    for (size_t k = 0; k < COUNT(NO_PERIODS); k++)
        period_refused(NO_PERIODS[k], XANHUPIVE_NO_PERIOD, last, "a period out of range, whatever the row's length");
}

/* Every length of a row: too short refused, no number changed; else written, the numbers around it as they were. */
static void period_lengths(uint8_t *end, double *last)
{
    const uint8_t mark = 0xa5;
    request(end, "650 0 760 - 10000 - 3000 4000 30 - - - 2000");
    for (size_t lent = 0; lent <= XANHUPIVE_COLUMNS + 8; lent++) {
        double *row = last - lent;
        size_t written = lent < XANHUPIVE_COLUMNS ? 0 : XANHUPIVE_COLUMNS;
        memset(row - 8, mark, (lent + 8) * sizeof *last);
        expect(xanhupive_period(line, length, 370, row, lent) == (written ? 0 : XANHUPIVE_TOO_LONG), "a row's length");
        expect(all_are((uint8_t *)(row - 8), (uint8_t *)row, mark), "the numbers before a row are as they were");
        expect(all_are((uint8_t *)(row + written), (uint8_t *)last, mark), "the numbers behind a row are as they were");
        for (size_t k = 0; k < written; k++)
            expect(!all_are((uint8_t *)(row + k), (uint8_t *)(row + k + 1), mark), "each number of a row is written");
    }
}

/* Whether two numbers are no farther apart than that. */
static int near(double a, double b, double by)
{
    return a - b <= by && b - a <= by;
}

/* Whether a number lies between two others, with some to spare. */
static int lies_between(double number, double a, double b, double spare)
{
    double low = a < b ? a : b;
    double high = a < b ? b : a;
    return low - spare <= number && number <= high + spare;
}

/* A row between those of its neighbours: each number a whole one and between theirs. */
static void row_between(const double *row, const double *shorter, const double *longer)
{
    for (int k = 0; k < XANHUPIVE_COLUMNS; k++) {
        double spare = k == 1 ? 1 + row[k] / 250000 : 1;
        expect(row[k] == (double)(int64_t)row[k], "a number of a row between two is a whole one");
        expect(lies_between(row[k], shorter[k], longer[k], spare), "a row between two lies between them");
    }
}

/* Every period of a request: a tabulated one has the row of the spectrum, any other lies between its neighbours. */
static void every_period(const double *rows, double *row)
{
    const double *at = rows;
    for (uint64_t period = XANHUPIVE_SHORTEST_PERIOD; period <= XANHUPIVE_LONGEST_PERIOD; period++) {
        expect(xanhupive_period(line, length, period, row, XANHUPIVE_COLUMNS) == 0, "every period from 10 to 10000");
        const uint64_t *tabulated = TABULATED + (at - rows) / XANHUPIVE_COLUMNS;
        if (period == *tabulated) {
            expect(memcmp(row, at, XANHUPIVE_COLUMNS * sizeof *row) == 0, "at a tabulated period the row is the spectrum's");
            at += XANHUPIVE_COLUMNS;
        } else {
            row_between(row, at - XANHUPIVE_COLUMNS, at);
        }
    }
    expect(at == rows + XANHUPIVE_COLUMNS * PERIODS, "all 21 tabulated periods");
}

/* The periods of a site that has rows of its own, and of a soft one whose short periods have PGA's median. */
static void each_period(uint8_t *end, double *last)
{
    static const char *const lines[] = {
        "650 0 760 90 10000 - 3000 4000 30 5000 - - 2000",
        "800 90 150 45 20000 - 1000 0 90 1000 - - 10000",
    };
    for (size_t k = 0; k < COUNT(lines); k++) {
        double rows[XANHUPIVE_NUMBERS] = {0};
        request(end, lines[k]);
        expect(xanhupive_spectrum(line, length, rows, XANHUPIVE_NUMBERS) == 0, "a spectrum beside its periods");
        every_period(rows, last - XANHUPIVE_COLUMNS);
    }
}

/* The valve's spring at 0.37 s, by the published equations and the line between 0.30 and 0.40 s. */
static void the_valves_spring(uint8_t *end)
{
    const double expected[] = {-495903, 6090208837, 541813, 216458, 583453, 618044};
    double row[XANHUPIVE_COLUMNS] = {0};
    request(end, "650 0 760 90 10000 - 3000 4000 30 5000 - - 2000");
    expect(xanhupive_period(line, length, 370, row, XANHUPIVE_COLUMNS) == 0, "0.37 s");
    for (int k = 0; k < XANHUPIVE_COLUMNS; k++)
        expect(near(row[k], expected[k], k == 1 ? 2 + expected[k] / 500000 : 1), "the row at 0.37 s");
}

static void periods(uint8_t *end, uint8_t *numbers_end)
{
    double *last = (double *)(void *)numbers_end;
    period_refusals(end, last);
    period_lengths(end, last);
    each_period(end, last);
    the_valves_spring(end);
}

int main(void)
{
    uint8_t *line_end = page_end();
    uint8_t *out_end = page_end();
    null_with_length_0(line_end);
    request(line_end, "650 0 760 - 10000 - 3000 4000 30 - - - 2000");
    every_length(xanhupive_complete_line, "ok 90 10000 3000 5000 2000 emmem\n", 33, out_end);
    uint8_t prediction[XANHUPIVE_LONGEST_ANSWER] = {0};
    size_t bytes = xanhupive_predict_line(line, length, prediction, sizeof prediction);
    every_length(xanhupive_predict_line, (const char *)prediction, bytes, out_end);
    request(line_end, "no request");
    every_length(xanhupive_complete_line, "no 14\n", 6, out_end);
    every_length(xanhupive_predict_line, "no 14\n", 6, out_end);
    one_measure(line_end);
    spectrum(line_end, out_end);
    soft_site(line_end);
    origins(line_end);
    longest_lines(line_end);
    longest_distance(line_end, out_end);
    request(line_end, "~650 ~0 ~760 - ~10000 - 3000 ~4000 30 - - - ~2000");
    every_length(xanhupive_complete_line, "ok 90 10000 3000 5000 2000 eimei\n", 33, out_end);
    periods(line_end, out_end);
    return counted("edges");
}
