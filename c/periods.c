/*
 * All six figures at a period, by the static library: on standard input lines of a period in thousandths of
 * a second, a space and a request; on standard output a line for each (period, ln median, median,
 * intra-event, inter-event, total and arbitrary sigma) or "no" and the refusal's number, that of a malformed
 * line too where no whole number of 64 bits stands before the request. The comparison with the second program
 * reads it.
 */
#include "lines.h"

#include <inttypes.h>
#include <stdio.h>

/* Digits of the largest period. */
#define DIGITS 20

/* A period, its space, and a line that is longer than any request as far as shows that. */
#define HELD (DIGITS + 1 + XANHUPIVE_LONGEST_LINE + 1)

/* How many bytes of a line are its period and the space behind it; 0 if it does not begin so. */
static size_t read_period(const uint8_t *line, size_t length, uint64_t *period) {
    size_t at = 0;
    *period = 0;
    while (at < length && at < DIGITS && line[at] >= '0' && line[at] <= '9') {
        uint64_t digit = (uint64_t)(line[at++] - '0');
        if (*period > (UINT64_MAX - digit) / 10)
            return 0;
        *period = *period * 10 + digit;
    }
    return at > 0 && at < length && line[at] == ' ' ? at + 1 : 0;
}

/* The line of one request. */
static void answer(const uint8_t *line, size_t length) {
    double row[XANHUPIVE_COLUMNS] = {0};
    uint64_t period;
    size_t before = read_period(line, length, &period);
    uint32_t refusal = XANHUPIVE_MALFORMED;
    if (before)
        refusal = xanhupive_period(line + before, length - before, period, row, XANHUPIVE_COLUMNS);
    if (refusal)
        printf("no %" PRIu32 "\n", refusal);
    else
        printf("%" PRIu64 " %.0f %.0f %.0f %.0f %.0f %.0f\n", period, row[0], row[1], row[2], row[3], row[4], row[5]);
}

int main(void) {
    uint8_t held[HELD];
    answer_lines(held, sizeof held, answer);
    return 0;
}
