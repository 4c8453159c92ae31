/* The file for site lists: a list of request lines as bytes, and back (document 02, K8). */
#ifndef FILES_H
#define FILES_H

#include <stddef.h>

#include "request.h"

#define HEAD_BYTES 7
#define RECORD_BYTES (5 * FIELDS)
#define MOST_RECORDS 65535
/* What a record's line has at least and at most, its LF counted. */
#define SHORTEST_BYTES 26
#define LONGEST_BYTES 106

#define NO_ROOM 16
#define NO_MARK 19
#define NO_LENGTH 20
#define NO_FIELD 21

int pack_list(const char *list, size_t size, unsigned char *file, size_t room, size_t *made);
int unpack_file(const unsigned char *file, size_t size, char *list, size_t room, size_t *made);

#endif
