/* The file for site lists (document 02, K8): mark, version, count, then a record for each line, all numbers high byte first. Both ways give
   0 and how many bytes were made, or a refusal. A record is tested by the text that it stands for: that must be read back as the record. */
#include "files.h"

#include <stdio.h>
#include <string.h>

/* What a file begins with: the mark and version 1; and a blank field's number. */
static const unsigned char MARK[] = {'G', 'M', 'Q', 0, 1};
#define BLANK_NUMBER (-2147483647L - 1)

/* What a record's line may have before it is tested: a tilde, a sign and ten digits in each field, what is behind it, and a 0 byte. */
#define WRITTEN_BYTES (13 * FIELDS + 1)

/* Writes the low bytes of a number, so many of them. */
static void put_number(unsigned char *at, int bytes, unsigned long number) {
    while (bytes-- > 0) {
        at[bytes] = number & 255;
        number >>= 8;
    }
}

/* The number, 0 or more, of so many bytes. */
static long long number_of(const unsigned char *at, int bytes) {
    long long number = 0;
    for (int k = 0; k < bytes; k++)
        number = 256 * number + at[k];
    return number;
}

/* The signed number of four bytes. */
static long signed_of(const unsigned char *at) {
    long long number = number_of(at, 4);
    return (long)(number > 2147483647 ? number - 4294967296 : number);
}

/* Writes a request as a record: its numbers, then its origins. */
static void put_record(unsigned char *at, const struct request *request) {
    for (int k = 0; k < FIELDS; k++) {
        const struct field *field = &request->field[k];
        put_number(at + 4 * k, 4, (unsigned long)(is_blank(field) ? BLANK_NUMBER : field->number));
        at[4 * FIELDS + k] = (unsigned char)field->origin;
    }
}

/* Writes a field's text by its origin; gives its size, 0 if text has no such origin. */
static int put_field(char *at, long number, int origin) {
    switch (origin) {
    case MEASURED:
        return sprintf(at, "%ld", number);
    case INFERRED:
        return sprintf(at, "~%ld", number);
    case BLANK:
        return sprintf(at, "-");
    default:
        return 0;
    }
}

/* Writes a record's line with its LF; gives its size, 0 if it is no line that is read as this record. */
static size_t line_of(const unsigned char *record, char line[WRITTEN_BYTES]) {
    struct request request;
    unsigned char again[RECORD_BYTES];
    size_t size = 0;
    for (int k = 0; k < FIELDS; k++) {
        size += (size_t)put_field(line + size, signed_of(record + 4 * k), record[4 * FIELDS + k]);
        line[size++] = k + 1 < FIELDS ? ' ' : '\n';
    }
    if (!parse_line(line, size - 1, &request))
        return 0;
    put_record(again, &request);
    return memcmp(again, record, RECORD_BYTES) == 0 ? size : 0;
}

/* Reads the line at a place of a list; gives the place behind its LF, or 0 if it is malformed or has no LF. */
static size_t next_line(const char *list, size_t size, size_t at, struct request *request) {
    const char *end = memchr(list + at, '\n', size - at);
    if (end == NULL || !parse_line(list + at, (size_t)(end - list) - at, request))
        return 0;
    return (size_t)(end - list) + 1;
}

/* The file of a list; what is lent is written only if nothing is refused. */
int pack_list(const char *list, size_t size, unsigned char *file, size_t room, size_t *made) {
    struct request request;
    size_t count = 0;
    for (size_t at = 0; at < size; count++) {
        at = next_line(list, size, at, &request);
        if (at == 0)
            return MALFORMED;
    }
    if (count > MOST_RECORDS)
        return NO_LENGTH;
    if (HEAD_BYTES + RECORD_BYTES * count > room)
        return NO_ROOM;
    memcpy(file, MARK, sizeof MARK);
    put_number(file + sizeof MARK, 2, count);
    *made = HEAD_BYTES;
    for (size_t at = 0; at < size; *made += RECORD_BYTES) {
        at = next_line(list, size, at, &request);
        put_record(file + *made, &request);
    }
    return 0;
}

/* The list of a file, likewise. */
int unpack_file(const unsigned char *file, size_t size, char *list, size_t room, size_t *made) {
    char line[WRITTEN_BYTES];
    size_t length = 0;
    if (size < sizeof MARK || memcmp(file, MARK, sizeof MARK) != 0)
        return NO_MARK;
    if (size < HEAD_BYTES || size != HEAD_BYTES + RECORD_BYTES * (size_t)number_of(file + sizeof MARK, 2))
        return NO_LENGTH;
    for (size_t at = HEAD_BYTES; at < size; at += RECORD_BYTES) {
        size_t more = line_of(file + at, line);
        if (more == 0)
            return NO_FIELD;
        length += more;
    }
    if (length > room)
        return NO_ROOM;
    *made = 0;
    for (size_t at = HEAD_BYTES; at < size; at += RECORD_BYTES) {
        size_t more = line_of(file + at, line);
        memcpy(list + *made, line, more);
        *made += more;
    }
    return 0;
}
