/* A list as a whole: what the tests share that read all of standard input. */
#ifndef LIST_H
#define LIST_H

#include <stdint.h>
#include <stdio.h>
#include <stdlib.h>

/* All of standard input. */
static uint8_t *read_list(const char *test, size_t *length)
{
    size_t room = 65536;
    uint8_t *list = malloc(room);
    size_t count;
    *length = 0;
    while (list != NULL && (count = fread(list + *length, 1, room - *length, stdin)) > 0) {
        *length += count;
        if (*length == room) {
            room *= 2;
            list = realloc(list, room);
        }
    }
    if (list == NULL || ferror(stdin)) {
        fprintf(stderr, "%s: standard input cannot be read\n", test);
        exit(1);
    }
    return list;
}

#endif
