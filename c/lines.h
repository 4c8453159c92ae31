/*
 * A list on standard input, answered line by line on standard output: what the programs that the comparison
 * reads share. Each line is held as far as shows that it is longer than any that is known.
 */
#ifndef LINES_H
#define LINES_H

#include "xanhupive.h"

#include <stdio.h>

/* Answers each line without its LF; one that has none at the end is malformed. */
static void answer_lines(uint8_t *held, size_t room, void answer(const uint8_t *line, size_t length)) {
    size_t length = 0;
    for (int c; (c = getchar()) != EOF;) {
        if (c == '\n') {
            answer(held, length);
            length = 0;
        } else if (length < room) {
            held[length++] = (uint8_t)c;
        }
    }
    if (length)
        printf("no %d\n", XANHUPIVE_MALFORMED);
}

#endif
