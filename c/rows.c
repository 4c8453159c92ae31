/*
 * All six figures of each measure, by the static library: a list of requests on standard input, and on
 * standard output 24 lines for each (measure number, ln median, median, intra-event, inter-event, total
 * and arbitrary sigma) or "no" and the refusal's number. The comparison with the second program reads it.
 */
#include "lines.h"

#include <stdio.h>

/* A line that is longer than any request is held as far as shows that. */
#define HELD (XANHUPIVE_LONGEST_LINE + 1)

/* The lines of one request. */
static void answer(const uint8_t *line, size_t length) {
    static double rows[XANHUPIVE_NUMBERS];
    uint32_t refusal = xanhupive_spectrum(line, length, rows, XANHUPIVE_NUMBERS);
    if (refusal) {
        printf("no %u\n", (unsigned)refusal);
        return;
    }
    for (int k = 0; k < XANHUPIVE_MEASURES; k++) {
        const double *row = rows + XANHUPIVE_COLUMNS * k;
        printf("%d %.0f %.0f %.0f %.0f %.0f %.0f\n", k, row[0], row[1], row[2], row[3], row[4], row[5]);
    }
}

int main(void) {
    uint8_t held[HELD];
    answer_lines(held, sizeof held, answer);
    return 0;
}
