/* Single calls of the library beside the same work in plain double precision, in turn, over the accepted lines of a list.

       calls NAME < list

   prints, for each call, the name of the list, the median of a call's nanoseconds on both sides, and the median of the rounds'
   ratios. Before that both sides must have given the same figures, as near as is proved. */
#define _POSIX_C_SOURCE 199309L
#include <math.h>
#include <stdio.h>
#include <stdlib.h>
#include <string.h>
#include <time.h>

#include "../c/xanhupive.h"
#include "../second/request.h"

#define LINES 512
#define ROUNDS 9
#define CALLS 8192
#define CURVES 128
#define COLUMNS XANHUPIVE_COLUMNS
#define NUMBERS XANHUPIVE_NUMBERS

/* The period that is asked for alone, in thousandths of a second; and how many a curve has. */
#define PERIOD 370
#define CURVE 200

/* A line without its LF. */
struct line {
    char bytes[LINE_BYTES + 2];
    size_t size;
};

/* A call on a line, the k-th of its round; it returns some figure of the answer, so that none is left out. */
typedef double call(const struct line *line, int k);

/* The lines that are called with. */
static struct line lines[LINES];
static int line_count;

/* What both sides write to; the library is lent only what holds values already. */
static double rows[NUMBERS];
static double row[COLUMNS];
static uint8_t bytes_out[XANHUPIVE_LONGEST_ANSWER + 1];

/* The periods of a curve. */
static uint64_t curve[CURVE];

/* Spaces them evenly in the logarithm, as whole numbers: some of the shortest come twice. */
static void space_curve(void) {
    for (int k = 0; k < CURVE; k++)
        curve[k] = (uint64_t)llround(XANHUPIVE_SHORTEST_PERIOD * pow(1000, k / (CURVE - 1.0)));
}

/* The completed figures of a line in double precision, or its refusal. */
static struct completed second_completed(const struct line *line) {
    struct request request;
    struct completed none = {.refusal = MALFORMED};
    return parse_line(line->bytes, line->size, &request) ? complete_request(&request) : none;
}

/* A prediction as the numbers that are reported. */
static void second_row(const struct prediction *p, double *to) {
    struct row r = reported(p);
    to[0] = (double)r.ln_median;
    to[1] = (double)r.median;
    to[2] = (double)r.intra;
    to[3] = (double)r.inter;
    to[4] = (double)r.total;
    to[5] = (double)r.arbitrary;
}

/* A spectrum in double precision. */
static void second_rows(const struct line *line, double *to) {
    struct completed c = second_completed(line);
    struct figures f = figures_of(&c);
    struct prediction spectrum[MEASURES];
    predict_all(&f, spectrum);
    for (int k = 0; k < MEASURES; k++)
        second_row(&spectrum[k], to + COLUMNS * k);
}

/* A period in double precision. */
static void second_at(const struct line *line, uint64_t period, double *to) {
    struct completed c = second_completed(line);
    struct figures f = figures_of(&c);
    struct prediction p = predict_period(&f, period);
    second_row(&p, to);
}

/* A period by the library: its refusal, or 0. */
static uint32_t library_at(const struct line *line, uint64_t period, double *to) {
    return xanhupive_period((const uint8_t *)line->bytes, line->size, period, to, COLUMNS);
}

/* All measures, in C. */
static double second_spectrum(const struct line *line, int k) {
    second_rows(line, rows);
    return rows[k % NUMBERS];
}

/* All measures, by the library. */
static double library_spectrum(const struct line *line, int k) {
    xanhupive_spectrum((const uint8_t *)line->bytes, line->size, rows, NUMBERS);
    return rows[k % NUMBERS];
}

/* One measure, each in turn, in C. */
static double second_measure(const struct line *line, int k) {
    struct completed c = second_completed(line);
    struct figures f = figures_of(&c);
    struct prediction p = predict_one(&f, k % MEASURES);
    struct row r = reported(&p);
    return (double)r.median + (double)r.total;
}

/* One measure, each in turn, by the library. */
static double library_measure(const struct line *line, int k) {
    double median = 0, total = 0;
    xanhupive_measure((const uint8_t *)line->bytes, line->size, (uint64_t)(k % MEASURES), &median, &total);
    return median + total;
}

/* One period, in C. */
static double second_period(const struct line *line, int k) {
    second_at(line, PERIOD, row);
    return row[k % COLUMNS];
}

/* One period, by the library. */
static double library_period(const struct line *line, int k) {
    library_at(line, PERIOD, row);
    return row[k % COLUMNS];
}

/* The periods of a curve, each from the line on as the library has to, in C. */
static double second_curve(const struct line *line, int k) {
    double sum = 0;
    for (int at = 0; at < CURVE; at++) {
        second_at(line, curve[at], row);
        sum += row[k % COLUMNS];
    }
    return sum;
}

/* The periods of a curve, by the library. */
static double library_curve(const struct line *line, int k) {
    double sum = 0;
    for (int at = 0; at < CURVE; at++) {
        library_at(line, curve[at], row);
        sum += row[k % COLUMNS];
    }
    return sum;
}

/* The answer line of `complete`, in C. */
static double second_completion(const struct line *line, int k) {
    char *out = (char *)bytes_out;
    struct completed c = second_completed(line);
    const struct field *f = c.record.field;
    char letters[6];
    letters_of(&c, letters);
    int size = snprintf(out, sizeof bytes_out, "ok %ld %ld %ld %ld %ld %s\n", f[F_DIP].number, f[F_W].number, f[F_ZTOR].number,
        f[F_RRUP].number, f[F_Z25].number, letters);
    return out[k % size];
}

/* The answer line of `complete`, by the library. */
static double library_completion(const struct line *line, int k) {
    size_t size = xanhupive_complete_line((const uint8_t *)line->bytes, line->size, bytes_out, sizeof bytes_out);
    return bytes_out[(size_t)k % size];
}

/* The answer lines of `predict`, in C. */
static double second_answer(const struct line *line, int k) {
    char *out = (char *)bytes_out;
    struct completed c = second_completed(line);
    struct figures f = figures_of(&c);
    struct prediction spectrum[MEASURES];
    int size = 0;
    predict_all(&f, spectrum);
    for (int m = 0; m < MEASURES; m++) {
        struct row r = reported(&spectrum[m]);
        size += snprintf(out + size, sizeof bytes_out - (size_t)size, "%d %lld %lld %lld\n", m, r.ln_median, r.median, r.total);
    }
    return out[k % size];
}

/* The answer lines of `predict`, by the library. */
static double library_answer(const struct line *line, int k) {
    size_t size = xanhupive_predict_line((const uint8_t *)line->bytes, line->size, bytes_out, sizeof bytes_out);
    return bytes_out[(size_t)k % size];
}

/* What is measured, and how many calls make a round. */
static const struct {
    const char *name;
    call *library, *second;
    int calls;
} PAIRS[] = {
    {"a spectrum", library_spectrum, second_spectrum, CALLS},
    {"one measure", library_measure, second_measure, CALLS},
    {"one period, 0.37 s", library_period, second_period, CALLS},
    {"a curve, 200 periods", library_curve, second_curve, CURVES},
    {"a completion, as text", library_completion, second_completion, CALLS},
    {"a spectrum, as text", library_answer, second_answer, CALLS},
};

/* Whether both sides give the same figures: within two units of a millionth, the median within two units and 4 parts in 10^6
   (what is proved, and the rounding of the other side). */
static int same(const double *library, const double *second, int count) {
    for (int k = 0; k < count; k++) {
        double allowed = k % COLUMNS == 1 ? 2 + 4e-6 * second[k] : 2;
        if (fabs(library[k] - second[k]) > allowed)
            return 0;
    }
    return 1;
}

/* Whether they give a line the same spectrum. Where an estimate differs by the metre that is allowed they may not. */
static int same_spectrum(const struct line *line) {
    double second[NUMBERS];
    if (xanhupive_spectrum((const uint8_t *)line->bytes, line->size, rows, NUMBERS) != 0)
        return 0;
    second_rows(line, second);
    return same(rows, second, NUMBERS);
}

/* Whether they give a line the same row at a period. */
static int same_period(const struct line *line, uint64_t period) {
    double second[COLUMNS];
    if (library_at(line, period, row) != 0)
        return 0;
    second_at(line, period, second);
    return same(row, second, COLUMNS);
}

/* Whether they give a line the same figures in all that is measured. */
static int alike(const struct line *line) {
    int all = same_spectrum(line) && same_period(line, PERIOD);
    for (int k = 0; k < CURVE && all; k++)
        all = same_period(line, curve[k]);
    return all;
}

/* Reads the accepted lines of standard input, as many as fit; how many of them the two sides answer unlike. */
static int read_lines(void) {
    char bytes[LINE_BYTES + 2];
    int unlike = 0;
    while (line_count < LINES && fgets(bytes, sizeof bytes, stdin)) {
        struct line *line = &lines[line_count];
        line->size = strcspn(bytes, "\n");
        memcpy(line->bytes, bytes, line->size);
        if (second_completed(line).refusal)
            continue;
        if (alike(line))
            line_count++;
        else
            unlike++;
    }
    return unlike;
}

/* What a call costs, in nanoseconds of processor time, over the lines in turn. */
static double nanoseconds(call *some, int calls) {
    static volatile double sink;
    struct timespec from, to;
    double sum = 0;
    clock_gettime(CLOCK_PROCESS_CPUTIME_ID, &from);
    for (int k = 0; k < calls; k++)
        sum += some(&lines[k % line_count], k);
    clock_gettime(CLOCK_PROCESS_CPUTIME_ID, &to);
    sink = sum;
    (void)sink;
    return ((double)(to.tv_sec - from.tv_sec) * 1e9 + (double)(to.tv_nsec - from.tv_nsec)) / calls;
}

/* The order of numbers, for qsort. */
static int ascending(const void *a, const void *b) {
    double x = *(const double *)a, y = *(const double *)b;
    return (x > y) - (x < y);
}

/* The median of the rounds' numbers, which it sorts. */
static double median(double *numbers) {
    qsort(numbers, ROUNDS, sizeof *numbers, ascending);
    return numbers[ROUNDS / 2];
}

/* Reads the list, and prints a line for each pair. */
int main(int count, char **words) {
    double library[ROUNDS], second[ROUNDS], ratio[ROUNDS];
    space_curve();
    int unlike = read_lines();
    if (count != 2 || line_count == 0 || unlike > line_count / 50) {
        fprintf(stderr, "calls NAME < list: %d lines answered alike, %d not\n", line_count, unlike);
        return 1;
    }
    for (size_t p = 0; p < sizeof PAIRS / sizeof *PAIRS; p++) {
        for (int round = 0; round < ROUNDS; round++) {
            library[round] = nanoseconds(PAIRS[p].library, PAIRS[p].calls);
            second[round] = nanoseconds(PAIRS[p].second, PAIRS[p].calls);
            ratio[round] = library[round] / second[round];
        }
        printf("%-34s%-8s%10.0f ns%10.0f ns%8.2f\n", PAIRS[p].name, words[1], median(library), median(second), median(ratio));
    }
    return 0;
}
