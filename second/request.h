/* A request: its line, its thirteen fields, and what it is completed to (document 01, source document 000). */
#ifndef REQUEST_H
#define REQUEST_H

#include <stddef.h>

#include "model.h"

#define FIELDS 13
#define LINE_BYTES 115
#define MALFORMED 14
#define NO_PERIOD 17
#define ESTIMATED_ALREADY 26

enum field_name { F_M, F_RAKE, F_VS30, F_DIP, F_W, F_ZHYP, F_ZTOR, F_RJB, F_AZIMUTH, F_RRUP, F_Z10, F_Z15, F_Z25 };

/* Where a figure comes from: measured, inferred by the caller, estimated by us; or that there is none. */
enum origin { MEASURED, INFERRED, ESTIMATED, BLANK };

/* A field: where its number comes from, and the number, 0 if it is blank. */
struct field {
    enum origin origin;
    long number;
};

struct request {
    struct field field[FIELDS];
};

/* A completed request, or a refusal other than 0: the record has all thirteen fields in whole degrees, metres, m/s and hundredths of
   magnitude, each with its origin, and no blank but Z1.0 and Z1.5; `exact` are its figures in metres before they were rounded. */
struct completed {
    int refusal;
    enum style style;
    struct request record;
    struct {
        double w, ztor, rrup, z25;
    } exact;
};

int is_given(const struct field *field);
int is_blank(const struct field *field);
char letter_of(enum origin origin);
int parse_line(const char *bytes, size_t size, struct request *request);
enum style style_of(long rake);
struct completed complete_request(const struct request *request);
struct completed estimate_request(const struct request *request);
void letters_of(const struct completed *completed, char letters[6]);
struct figures figures_of(const struct completed *completed);

#endif
