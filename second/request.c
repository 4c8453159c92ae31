/* Document 01's text form, order of refusals and rules for blank fields; the geometry by the equations of source document 000. */
#include "request.h"

#include <math.h>

#define PI 3.14159265358979323846

/* Less than this above a whole metre is taken for that metre when rounding up: the error of a double lies well below it. */
#define MICROMETRE 1e-6

/* Whether a field has a number of the caller's, measured or inferred: what document 01 calls given. */
int is_given(const struct field *field) {
    return field->origin == MEASURED || field->origin == INFERRED;
}

/* Whether a field has no number. */
int is_blank(const struct field *field) {
    return field->origin == BLANK;
}

/* The letter that an origin is shown by. */
char letter_of(enum origin origin) {
    return "mie-"[origin];
}

/* A field from its bytes; 0 if they are neither a number of the text form, with a '~' before it if it is inferred, nor one '-'. */
static int parse_field(const char *bytes, size_t size, int may_be_negative, struct field *field) {
    size_t inferred = size > 0 && bytes[0] == '~';
    size_t negative = size > inferred && bytes[inferred] == '-';
    field->origin = BLANK;
    field->number = 0;
    if (negative && size == 1)
        return 1;
    if (negative && !may_be_negative)
        return 0;
    const char *digits = bytes + inferred + negative;
    size_t count = size - inferred - negative;
    if (count < 1 || count > 6 || (digits[0] == '0' && (count > 1 || negative)))
        return 0;
    for (size_t k = 0; k < count; k++) {
        if (digits[k] < '0' || digits[k] > '9')
            return 0;
        field->number = 10 * field->number + (digits[k] - '0');
    }
    field->origin = inferred ? INFERRED : MEASURED;
    if (negative)
        field->number = -field->number;
    return 1;
}

/* The thirteen fields of a line without its LF; 0 if it is malformed. */
int parse_line(const char *bytes, size_t size, struct request *request) {
    size_t at = 0;
    if (size > LINE_BYTES)
        return 0;
    for (int k = 0; k < FIELDS; k++) {
        size_t end = at;
        while (end < size && bytes[end] != ' ')
            end++;
        if (!parse_field(bytes + at, end - at, k == F_RAKE || k == F_AZIMUTH, &request->field[k]))
            return 0;
        if ((end < size) != (k + 1 < FIELDS))
            return 0;
        at = end + 1;
    }
    return 1;
}

/* The style by rake, open ranges (003). */
enum style style_of(long rake) {
    if (30 < rake && rake < 150)
        return REVERSE;
    return -150 < rake && rake < -30 ? NORMAL : STRIKE_SLIP;
}

/* The largest magnitude that the model covers, in hundredths. */
static long largest_magnitude(enum style style) {
    return style == STRIKE_SLIP ? 850 : style == REVERSE ? 800 : 750;
}

/* The sine of a whole degree from -180 to 180, exact at 30 and 90. */
static double sine(long degrees) {
    if (degrees < 0)
        return -sine(-degrees);
    if (degrees > 90)
        degrees = 180 - degrees;
    return degrees == 30 ? 0.5 : sin((double)degrees * PI / 180);
}

/* The cosine of a whole degree from 0 to 180. */
static double cosine(long degrees) {
    return sine(90 - degrees);
}

/* The dip where none is given. */
static long estimate_dip(enum style style) {
    return style == STRIKE_SLIP ? 90 : style == REVERSE ? 40 : 50;
}

/* The rupture's width where none is given (000, equation 2). */
static double estimate_width(enum style style, long m) {
    double magnitude = (double)m / 100;
    double log_km = style == STRIKE_SLIP ? -0.76 + 0.27 * magnitude
        : style == REVERSE               ? -1.61 + 0.41 * magnitude
                                         : -1.14 + 0.35 * magnitude;
    return 1000 * pow(10, log_km);
}

/* The hypocentre's depth in tenths of a metre (000, equation 4). */
static long hypocentre(const struct field *zhyp, enum style style, long m) {
    if (is_given(zhyp))
        return 10 * zhyp->number;
    return style == STRIKE_SLIP ? 56300 + 68 * m : 112400 - 20 * m;
}

/* The depth of the rupture's top where none is given (000, equation 3). */
static double estimate_top(long hypocentre_tenths, long w, long dip) {
    double tenths = (double)hypocentre_tenths - 6 * (double)w * sine(dip);
    return tenths > 0 ? tenths / 10 : 0;
}

/* The smallest whole number whose square is not below n. */
static long root_up(long long n) {
    long long r = (long long)sqrt((double)n);
    while (r * r >= n && r > 0)
        r--;
    while (r * r < n)
        r++;
    return (long)r;
}

/* RX for a dip below 90 and an azimuth from 1 to 179 (000, equations 7 to 9). */
static double across_strike(long azimuth, double rjb, double h) {
    if (azimuth == 90)
        return rjb + h;
    double tangent = sine(azimuth) / cosine(azimuth);
    if (rjb * fabs(tangent) <= h)
        return rjb * fabs(tangent);
    return rjb * tangent * cos((double)azimuth * PI / 180 - asin(h * cosine(azimuth) / rjb));
}

/* R' in the plane across the strike (000, equations 15 to 17). */
static double in_plane(double rx, double ztor, double w, long dip) {
    double s = sine(dip), c = cosine(dip), t = s / c;
    if (rx < ztor * t)
        return sqrt(rx * rx + ztor * ztor);
    if (rx <= ztor * t + w / c)
        return rx * s + ztor * c;
    return hypot(rx - w * c, ztor + w * s);
}

/* The rupture distance where none is given (000, equations 14 to 21). */
static double estimate_distance(long dip, long w, long ztor, long rjb, long azimuth) {
    if (dip == 90 || azimuth <= 0 || azimuth == 180)
        return hypot((double)rjb, (double)ztor);
    double rx = across_strike(azimuth, (double)rjb, (double)w * cosine(dip));
    double ry = azimuth == 90 ? 0 : rx * fabs(cosine(azimuth) / sine(azimuth));
    return hypot(in_plane(rx, (double)ztor, (double)w, dip), ry);
}

/* The rupture distance as it is reported: rounded up, and never below the root of RJB² + ZTOR². */
static long reported_distance(double exact, long rjb, long ztor) {
    long least = root_up((long long)rjb * rjb + (long long)ztor * ztor);
    long distance = (long)ceil(exact - MICROMETRE);
    return distance > least ? distance : least;
}

/* Z2.5 where none is given (000, equations 23, 25 and 26). */
static double estimate_basin(const struct field *z15, const struct field *z10, long vs30) {
    if (is_given(z15))
        return 636 + 1549 * (double)z15->number / 1000;
    if (is_given(z10))
        return 519 + 3595 * (double)z10->number / 1000;
    double v = (double)vs30;
    double ln_z = v < 180 ? 6.745 : v <= 500 ? 6.745 - 1.35 * log(v / 180) : 5.394 - 4.48 * log(v / 500);
    return 519 + 3.595 * exp(ln_z);
}

/* Whether a field is given and outside its range. */
static int outside(const struct field *field, long low, long high) {
    return is_given(field) && (field->number < low || field->number > high);
}

/* Whether a field without a star is blank or outside its range. */
static int missing(const struct field *field, long low, long high) {
    return is_blank(field) || outside(field, low, high);
}

/* A refusal: its number and zeros in all else. */
static struct completed refused(int number) {
    struct completed none = {0};
    none.refusal = number;
    return none;
}

/* 1 to 6: the first refusal of what is known before anything is estimated, or 0. */
static int source_refusal(const struct field *f) {
    if (missing(&f[F_RAKE], -180, 180))
        return 1;
    if (missing(&f[F_M], 400, largest_magnitude(style_of(f[F_RAKE].number))))
        return 2;
    if (missing(&f[F_VS30], 150, 1500))
        return 3;
    if (outside(&f[F_DIP], 15, 90))
        return 4;
    if (outside(&f[F_W], 1, 100000))
        return 5;
    return outside(&f[F_ZHYP], 0, 30000) ? 6 : 0;
}

/* 26: whether a field is marked as estimated by us already, which only a record in memory can be. */
static int has_estimate(const struct field *f) {
    for (int k = 0; k < FIELDS; k++)
        if (f[k].origin == ESTIMATED)
            return 1;
    return 0;
}

/* 12 and 18, or 0: a given RRUP that does not come to the rupture's top even if it were a metre longer, or that leads beyond the rupture even
   if it were a metre shorter, no place of which is deeper than ZTOR + W. */
static int length_refusal(const struct field *f) {
    long long r = f[F_RRUP].number, b = f[F_RJB].number, top = f[F_ZTOR].number, deepest = top + f[F_W].number;
    if ((r + 1) * (r + 1) < b * b + top * top)
        return 12;
    return r >= 1 && (r - 1) * (r - 1) > b * b + deepest * deepest ? 18 : 0;
}

/* Puts an estimate where a field is blank; a given one stays as it is. */
static void fill(struct field *field, long number) {
    if (is_blank(field))
        *field = (struct field){ESTIMATED, number};
}

/* Fills dip, W, ZHYP and ZTOR, W and ZTOR rounded down; ZTOR is reckoned from the tenths of a metre that ZHYP has no place for. */
static void fill_source(struct completed *c) {
    struct field *f = c->record.field;
    long m = f[F_M].number, tenths = hypocentre(&f[F_ZHYP], c->style, m);
    fill(&f[F_DIP], estimate_dip(c->style));
    c->exact.w = is_given(&f[F_W]) ? (double)f[F_W].number : estimate_width(c->style, m);
    fill(&f[F_W], (long)floor(c->exact.w));
    fill(&f[F_ZHYP], tenths / 10);
    c->exact.ztor = is_given(&f[F_ZTOR]) ? (double)f[F_ZTOR].number : estimate_top(tenths, f[F_W].number, f[F_DIP].number);
    fill(&f[F_ZTOR], (long)floor(c->exact.ztor));
}

/* Fills RRUP once dip, W and ZTOR are there. */
static void fill_distance(struct completed *c) {
    struct field *f = c->record.field;
    long ztor = f[F_ZTOR].number, rjb = f[F_RJB].number;
    c->exact.rrup = (double)f[F_RRUP].number;
    if (is_given(&f[F_RRUP]))
        return;
    c->exact.rrup = estimate_distance(f[F_DIP].number, f[F_W].number, ztor, rjb, f[F_AZIMUTH].number);
    fill(&f[F_RRUP], reported_distance(c->exact.rrup, rjb, ztor));
}

/* Fills Z2.5, rounded down; Z1.0 and Z1.5 stay blank where they are. */
static void fill_basin(struct completed *c) {
    struct field *f = c->record.field;
    c->exact.z25 = is_given(&f[F_Z25]) ? (double)f[F_Z25].number : estimate_basin(&f[F_Z15], &f[F_Z10], f[F_VS30].number);
    fill(&f[F_Z25], (long)floor(c->exact.z25));
}

/* Completes a request; where `limits` is 0 what was estimated is not tested, nor a given RRUP against it (7, 11, 12, 18, 13). */
static struct completed complete(const struct request *request, int limits) {
    struct completed c = {.record = *request};
    const struct field *f = c.record.field;
    int refusal = has_estimate(f) ? ESTIMATED_ALREADY : source_refusal(f);
    if (refusal)
        return refused(refusal);
    c.style = style_of(f[F_RAKE].number);
    fill_source(&c);
    if ((limits || is_given(&f[F_ZTOR])) && f[F_ZTOR].number > 15000)
        return refused(7);
    if (missing(&f[F_RJB], 0, 200000))
        return refused(8);
    if (missing(&f[F_AZIMUTH], -180, 180))
        return refused(9);
    if (is_blank(&f[F_RRUP]) && f[F_DIP].number < 90 && f[F_RJB].number == 0 && f[F_AZIMUTH].number == 90)
        return refused(10);
    fill_distance(&c);
    if ((limits || is_given(&f[F_RRUP])) && f[F_RRUP].number > 200000)
        return refused(11);
    refusal = limits && is_given(&f[F_RRUP]) ? length_refusal(f) : 0;
    if (refusal)
        return refused(refusal);
    if (outside(&f[F_Z10], 0, 10000) || outside(&f[F_Z15], 0, 10000))
        return refused(13);
    fill_basin(&c);
    if ((limits || is_given(&f[F_Z25])) && f[F_Z25].number > 10000)
        return refused(13);
    return c;
}

/* A request completed, or its refusal. */
struct completed complete_request(const struct request *request) {
    return complete(request, 1);
}

/* The figures of a request, also where an estimate lies outside its range; for the comparison at the limits. */
struct completed estimate_request(const struct request *request) {
    return complete(request, 0);
}

/* The letters of a completed request's five columns, where each figure comes from, and a 0 byte. */
void letters_of(const struct completed *c, char letters[6]) {
    const enum field_name columns[] = {F_DIP, F_W, F_ZTOR, F_RRUP, F_Z25};
    for (int k = 0; k < 5; k++)
        letters[k] = letter_of(c->record.field[columns[k]].origin);
    letters[5] = 0;
}

/* A completed request in the units of the equations; where a figure comes from moves none of them. */
struct figures figures_of(const struct completed *c) {
    const struct field *from = c->record.field;
    struct figures f;
    f.style = c->style;
    f.m = (double)from[F_M].number / 100;
    f.vs30 = (double)from[F_VS30].number;
    f.dip = (double)from[F_DIP].number;
    f.ztor = (double)from[F_ZTOR].number / 1000;
    f.rjb = (double)from[F_RJB].number / 1000;
    f.rrup = (double)from[F_RRUP].number / 1000;
    f.z25 = (double)from[F_Z25].number / 1000;
    return f;
}
