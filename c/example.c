/* Document 01's first line completed, predicted and asked for its peak ground acceleration, and for the
 * shaking at 0.37 s, between two tabulated periods; then lent a buffer that is too short. */
#include <stdint.h>
#include <stdio.h>
#include <string.h>

#include "xanhupive.h"

static const char request[] = "650 0 760 - 10000 - 3000 4000 30 - - - 2000";

/* Tells a refusal, and whether there was one. */
static int refused(uint32_t refusal)
{
    if (refusal != 0)
        printf("refusal %u\n", (unsigned)refusal);
    return refusal != 0;
}

int main(void)
{
    const uint8_t *line = (const uint8_t *)request;
    const size_t length = strlen(request);

    uint8_t out[XANHUPIVE_LONGEST_ANSWER] = {0};
    size_t written = xanhupive_complete_line(line, length, out, sizeof out);
    fwrite(out, 1, written, stdout);

    written = xanhupive_predict_line(line, length, out, sizeof out);
    fwrite(out, 1, written, stdout);

    const uint64_t pga = 21;
    double median = 0.0;
    double total = 0.0;
    if (refused(xanhupive_measure(line, length, pga, &median, &total)))
        return 1;
    printf("PGA %.10f g, total sigma %.6f\n", median / 1e10, total / 1e6);

    const uint64_t thousandths = 370;
    double row[XANHUPIVE_COLUMNS] = {0};
    if (refused(xanhupive_period(line, length, thousandths, row, XANHUPIVE_COLUMNS)))
        return 1;
    printf("0.370 s %.10f g, total sigma %.6f\n", row[1] / 1e10, row[4] / 1e6);

    uint8_t few[4] = {'l', 'e', 'n', 't'};
    written = xanhupive_complete_line(line, length, few, sizeof few);
    printf("in %zu bytes: %zu written, %.4s\n", sizeof few, written, (const char *)few);
    return 0;
}
