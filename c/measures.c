/* Each measure of each line of a list, by xanhupive_measure alone: what the library and the controller's are compared by.
 *
 *     measures < list
 *
 * prints for each line and each measure, and for the number behind the last, the median and the total sigma, or "no" and
 * the refusal's number. A last line without its LF is taken as any other: a caller of the library has no LFs. */
#include <string.h>

#include "list.h"
#include "xanhupive.h"

/* Prints the answer for one measure of a line. */
static void print_measure(const uint8_t *line, size_t length, uint64_t measure)
{
    double median = 0;
    double total = 0;
    uint32_t refusal = xanhupive_measure(line, length, measure, &median, &total);
    if (refusal != 0) {
        printf("no %u\n", (unsigned)refusal);
    } else {
        printf("%.0f %.0f\n", median, total);
    }
}

int main(void)
{
    size_t left;
    uint8_t *list = read_list("measures", &left);
    const uint8_t *line = list;
    while (left > 0) {
        const uint8_t *end = memchr(line, '\n', left);
        size_t length = end == NULL ? left : (size_t)(end - line);
        for (uint64_t measure = 0; measure <= XANHUPIVE_MEASURES; measure++) {
            print_measure(line, length, measure);
        }
        size_t size = length + (end != NULL);
        line += size;
        left -= size;
    }
    free(list);
    return 0;
}
