/* The second program: a list of requests on standard input, its answers on standard output.

       second complete        document 01's completing program
       second predict         document 01's predicting program
       second period T        its line for each request at a period, T thousandths of a second: T, ln median, median, total sigma;
                              `second predict --period T` is the same
       second rows            as predict, with all six figures of a row: ln median, median, intra, inter, total, arbitrary
       second fine            as rows, each figure in thousandths of its reported unit
       second periods         each line has its own period before the request, with a space between: all six figures of that row, the
                              period before them
       second fine-periods    as periods, each figure in thousandths of its reported unit
       second raised          the measures whose median is PGA's, since their own is lower, with a semicolon between; - for none
       second figures         as complete, what was estimated untested (see request.c), with W, ZTOR, RRUP and Z2.5 in mm behind it
       second record          the completed record: thirteen numbers, each with the letter of its origin behind it, - for a blank
       second marked          the completed record sent back as it stands, and with what was estimated marked as inferred: both answers
                              as complete has them, a semicolon and a space between; a refused request's refusal
       second each-marked     the request thirteen times, each time with one field marked as estimated by us: the refusals' numbers

   A period is any whole number of 64 bits, of 20 digits at most. And between two paths, a list and the file for site lists:

       second pack LIST FILE      writes the file of a list
       second unpack FILE LIST    writes the list of a file

   A refusal of these two is `no` and its number on standard error, and status 1; then nothing was written. */
#include <limits.h>
#include <math.h>
#include <stdio.h>
#include <stdlib.h>
#include <string.h>

#include "files.h"
#include "model.h"
#include "request.h"

#define BLOCK 65536
#define PERIOD_DIGITS 20

/* What a line asks: a request and, where the command has one, a period in thousandths of a second. */
struct asked {
    struct request request;
    unsigned long long period;
};

typedef void answer(const struct asked *asked);

/* Where a command has its period from. */
enum source { NO_SOURCE, ITS_ARGUMENT, EACH_LINE };

struct command {
    const char *name;
    answer *to;
    enum source period;
};

/* A completed request's line without its LF. */
static void print_completed(const struct completed *c) {
    const struct field *f = c->record.field;
    char letters[6];
    if (c->refusal) {
        printf("no %d", c->refusal);
        return;
    }
    letters_of(c, letters);
    printf("ok %ld %ld %ld %ld %ld %s", f[F_DIP].number, f[F_W].number, f[F_ZTOR].number, f[F_RRUP].number, f[F_Z25].number, letters);
}

/* The line of `complete`. */
static void answer_complete(const struct asked *asked) {
    struct completed c = complete_request(&asked->request);
    print_completed(&c);
    putchar('\n');
}

/* The line of `figures`. */
static void answer_figures(const struct asked *asked) {
    struct completed c = estimate_request(&asked->request);
    print_completed(&c);
    if (!c.refusal)
        printf(" %lld %lld %lld %lld", llround(c.exact.w * 1e3), llround(c.exact.ztor * 1e3),
            llround(c.exact.rrup * 1e3), llround(c.exact.z25 * 1e3));
    putchar('\n');
}

/* A field of a completed record: its number and the letter of its origin, or - for a blank. */
static void print_field(const struct field *field) {
    if (!is_blank(field))
        printf("%ld", field->number);
    putchar(letter_of(field->origin));
}

/* The thirteen fields of a completed record. */
static void print_record(const struct request *record) {
    for (int k = 0; k < FIELDS; k++) {
        if (k)
            putchar(' ');
        print_field(&record->field[k]);
    }
}

/* The line of `record`. */
static void answer_record(const struct asked *asked) {
    struct completed c = complete_request(&asked->request);
    if (c.refusal)
        print_completed(&c);
    else
        print_record(&c.record);
    putchar('\n');
}

/* A completed record as a request that may be sent: what was estimated is marked as inferred. */
static struct request as_inferred(const struct request *record) {
    struct request request = *record;
    for (int k = 0; k < FIELDS; k++)
        if (request.field[k].origin == ESTIMATED)
            request.field[k].origin = INFERRED;
    return request;
}

/* The line of `marked`. */
static void answer_marked(const struct asked *asked) {
    struct completed c = complete_request(&asked->request);
    if (!c.refusal) {
        struct request inferred = as_inferred(&c.record);
        struct completed as_it_stands = complete_request(&c.record);
        print_completed(&as_it_stands);
        printf("; ");
        c = complete_request(&inferred);
    }
    print_completed(&c);
    putchar('\n');
}

/* The line of `each-marked`. */
static void answer_each_marked(const struct asked *asked) {
    for (int k = 0; k < FIELDS; k++) {
        struct request request = asked->request;
        request.field[k].origin = ESTIMATED;
        printf(k ? " %d" : "%d", complete_request(&request).refusal);
    }
    putchar('\n');
}

/* How many measures of a request there are to print: all, or none with the refusal printed. */
static int spectrum_of(const struct request *request, struct prediction spectrum[MEASURES]) {
    struct completed c = complete_request(request);
    if (c.refusal) {
        printf("no %d\n", c.refusal);
        return 0;
    }
    struct figures f = figures_of(&c);
    predict_all(&f, spectrum);
    return MEASURES;
}

/* Whether a request has a row at its period; if not, with the refusal printed. */
static int row_of(const struct asked *asked, struct prediction *row) {
    struct completed c = complete_request(&asked->request);
    int refusal = c.refusal ? c.refusal : has_period(asked->period) ? 0 : NO_PERIOD;
    if (refusal) {
        printf("no %d\n", refusal);
        return 0;
    }
    struct figures f = figures_of(&c);
    *row = predict_period(&f, asked->period);
    return 1;
}

/* All six figures of a row as they are reported, after its number. */
static void print_row(unsigned long long number, const struct prediction *p) {
    struct row r = reported(p);
    printf("%llu %lld %lld %lld %lld %lld %lld\n", number, r.ln_median, r.median, r.intra, r.inter, r.total, r.arbitrary);
}

/* All six figures of a row in thousandths of their units, after its number. */
static void print_fine(unsigned long long number, const struct prediction *p) {
    printf("%llu %lld %lld %lld %lld %lld %lld\n", number, llround(p->ln_median * 1e9), llround(p->median * 1e13),
        llround(p->intra * 1e9), llround(p->inter * 1e9), llround(p->total * 1e9), llround(p->arbitrary * 1e9));
}

/* The lines of `predict`. */
static void answer_predict(const struct asked *asked) {
    struct prediction spectrum[MEASURES];
    int count = spectrum_of(&asked->request, spectrum);
    for (int k = 0; k < count; k++) {
        struct row r = reported(&spectrum[k]);
        printf("%d %lld %lld %lld\n", k, r.ln_median, r.median, r.total);
    }
}

/* The line of `period`. */
static void answer_period(const struct asked *asked) {
    struct prediction p;
    if (!row_of(asked, &p))
        return;
    struct row row = reported(&p);
    printf("%llu %lld %lld %lld\n", asked->period, row.ln_median, row.median, row.total);
}

/* The lines of `rows`. */
static void answer_rows(const struct asked *asked) {
    struct prediction spectrum[MEASURES];
    int count = spectrum_of(&asked->request, spectrum);
    for (int k = 0; k < count; k++)
        print_row((unsigned long long)k, &spectrum[k]);
}

/* The lines of `fine`. */
static void answer_fine(const struct asked *asked) {
    struct prediction spectrum[MEASURES];
    int count = spectrum_of(&asked->request, spectrum);
    for (int k = 0; k < count; k++)
        print_fine((unsigned long long)k, &spectrum[k]);
}

/* The line of `periods`. */
static void answer_periods(const struct asked *asked) {
    struct prediction p;
    if (row_of(asked, &p))
        print_row(asked->period, &p);
}

/* The line of `fine-periods`. */
static void answer_fine_periods(const struct asked *asked) {
    struct prediction p;
    if (row_of(asked, &p))
        print_fine(asked->period, &p);
}

/* The line of `raised`. */
static void answer_raised(const struct asked *asked) {
    struct prediction spectrum[MEASURES];
    int count = spectrum_of(&asked->request, spectrum), found = 0;
    for (int k = 0; k < count; k++)
        if (spectrum[k].raised)
            printf(found++ ? ";%d" : "%d", k);
    if (count)
        puts(found ? "" : "-");
}

static const struct command COMMANDS[] = {
    {"complete", answer_complete, NO_SOURCE},
    {"predict", answer_predict, NO_SOURCE},
    {"period", answer_period, ITS_ARGUMENT},
    {"rows", answer_rows, NO_SOURCE},
    {"fine", answer_fine, NO_SOURCE},
    {"periods", answer_periods, EACH_LINE},
    {"fine-periods", answer_fine_periods, EACH_LINE},
    {"raised", answer_raised, NO_SOURCE},
    {"figures", answer_figures, NO_SOURCE},
    {"record", answer_record, NO_SOURCE},
    {"marked", answer_marked, NO_SOURCE},
    {"each-marked", answer_each_marked, NO_SOURCE},
};
#define COMMANDS_COUNT (sizeof COMMANDS / sizeof COMMANDS[0])

/* A whole number of 64 bits from its digits; 0 if they are none. */
static int parse_period(const char *bytes, size_t size, unsigned long long *period) {
    *period = 0;
    if (size < 1 || size > PERIOD_DIGITS)
        return 0;
    for (size_t k = 0; k < size; k++) {
        if (bytes[k] < '0' || bytes[k] > '9')
            return 0;
        unsigned long long digit = (unsigned long long)(bytes[k] - '0');
        if (*period > (ULLONG_MAX - digit) / 10)
            return 0;
        *period = 10 * *period + digit;
    }
    return 1;
}

/* How many bytes of a line are its period and the space behind it; 0 if it does not begin so. */
static size_t period_before(const char *bytes, size_t size, unsigned long long *period) {
    size_t digits = 0;
    while (digits < size && bytes[digits] != ' ')
        digits++;
    return digits < size && parse_period(bytes, digits, period) ? digits + 1 : 0;
}

/* The answer to one line without its LF, the period being that of the command's argument unless each line has its own. */
static void answer_line(const char *bytes, size_t size, const struct command *command, unsigned long long period) {
    struct asked asked = {.period = period};
    int own = command->period == EACH_LINE;
    size_t before = own ? period_before(bytes, size, &asked.period) : 0;
    if ((before || !own) && parse_line(bytes + before, size - before, &asked.request))
        command->to(&asked);
    else
        printf("no %d\n", MALFORMED);
}

/* The answers to a list; of a line, no more is held than shows that it is too long. */
static void answer_list(const struct command *command, unsigned long long period) {
    char block[BLOCK], held[PERIOD_DIGITS + 1 + LINE_BYTES + 1];
    size_t size = 0, count;
    while ((count = fread(block, 1, sizeof block, stdin)) > 0) {
        for (size_t k = 0; k < count; k++) {
            if (block[k] == '\n') {
                answer_line(held, size, command, period);
                size = 0;
            } else if (size < sizeof held) {
                held[size++] = block[k];
            }
        }
    }
    if (size > 0)
        printf("no %d\n", MALFORMED);
}

/* The command of the arguments, with its period; NULL if they name none. */
static const struct command *command_of(int count, char **words, unsigned long long *period) {
    int long_form = count == 4 && strcmp(words[1], "predict") == 0 && strcmp(words[2], "--period") == 0;
    const char *name = long_form ? "period" : count > 1 ? words[1] : "";
    size_t k = 0;
    while (k < COMMANDS_COUNT && strcmp(COMMANDS[k].name, name) != 0)
        k++;
    if (k == COMMANDS_COUNT)
        return NULL;
    if (COMMANDS[k].period != ITS_ARGUMENT)
        return count == 2 ? &COMMANDS[k] : NULL;
    if (count != 3 && !long_form)
        return NULL;
    const char *last = words[count - 1];
    return parse_period(last, strlen(last), period) ? &COMMANDS[k] : NULL;
}

/* All bytes of a path, allocated; NULL if they cannot be had. */
static char *read_path(const char *path, size_t *size) {
    FILE *from = fopen(path, "rb");
    size_t room = BLOCK, count;
    char *bytes = from ? malloc(room) : NULL;
    *size = 0;
    while (bytes && (count = fread(bytes + *size, 1, room - *size, from)) > 0) {
        *size += count;
        if (*size == room) {
            char *more = realloc(bytes, room *= 2);
            if (more == NULL)
                free(bytes);
            bytes = more;
        }
    }
    if (bytes && ferror(from)) {
        free(bytes);
        bytes = NULL;
    }
    if (from)
        fclose(from);
    return bytes;
}

/* Writes a path anew; whether it could. */
static int write_path(const char *path, const char *bytes, size_t size) {
    FILE *to = fopen(path, "wb");
    if (to == NULL)
        return 0;
    int written = fwrite(bytes, 1, size, to) == size;
    return fclose(to) == 0 && written;
}

/* What bytes become: those allocated, their size and a refusal; NULL if there is no memory for them. */
typedef char *conversion(const char *bytes, size_t size, size_t *made, int *refusal);

/* The file of a list, with room for as many of the shortest lines. */
static char *packed(const char *bytes, size_t size, size_t *made, int *refusal) {
    size_t room = HEAD_BYTES + RECORD_BYTES * (size / SHORTEST_BYTES + 1);
    char *file = malloc(room);
    if (file)
        *refusal = pack_list(bytes, size, (unsigned char *)file, room, made);
    return file;
}

/* The list of a file, with room for the longest line of each record. */
static char *unpacked(const char *bytes, size_t size, size_t *made, int *refusal) {
    size_t room = LONGEST_BYTES * (size / RECORD_BYTES + 1);
    char *list = malloc(room);
    if (list)
        *refusal = unpack_file((const unsigned char *)bytes, size, list, room, made);
    return list;
}

/* Runs a conversion from one path to another; the exit status. */
static int convert(conversion *to_made, const char *from, const char *to) {
    size_t size, made = 0;
    int refusal = 0;
    char *bytes = read_path(from, &size), *result = bytes ? to_made(bytes, size, &made, &refusal) : NULL;
    int done = result && !refusal && write_path(to, result, made);
    if (refusal)
        fprintf(stderr, "no %d\n", refusal);
    else if (!done)
        fprintf(stderr, "second: %s cannot be %s\n", result ? to : from, result ? "written" : "read");
    free(bytes);
    free(result);
    return !done;
}

/* Runs the command that the arguments name. */
int main(int count, char **words) {
    unsigned long long period = 0;
    if (count == 4 && strcmp(words[1], "pack") == 0)
        return convert(packed, words[2], words[3]);
    if (count == 4 && strcmp(words[1], "unpack") == 0)
        return convert(unpacked, words[2], words[3]);
    const struct command *command = command_of(count, words, &period);
    if (command == NULL) {
        fputs("second complete|predict|rows|fine|periods|fine-periods|raised|figures|record|marked|each-marked, second period T, "
              "second pack LIST FILE, second unpack FILE LIST\n",
            stderr);
        return 2;
    }
    if (command->to == answer_complete || command->to == answer_figures)
        puts("dip W ZTOR RRUP Z25 from");
    answer_list(command, period);
    return ferror(stdin) || fflush(stdout) != 0 || ferror(stdout);
}
