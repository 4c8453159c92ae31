/* A list given in parts, by the functions of xanhupive.h that take one.
 *
 *     parts               calls at the edges of what is promised, counted
 *     parts SEED [SHEET]  the list on standard input in parts of 0 to 7 bytes, its answers on standard
 *                         output; the parts and the room lent for answers are drawn from the seed
 *
 * The sheet is 0, the completing one, where none is given. Whatever is lent ends at a page that may not be
 * touched, so that a byte read or written past it ends the run. */
#include "checks.h"

#include <stdlib.h>
#include <string.h>

#include "list.h"
#include "xanhupive.h"

/* What stands in lent bytes and numbers before a call, and how many such bytes before them. */
#define MARK 0xa5
#define MARKED UINT64_C(0xa5a5a5a5a5a5a5a5)
#define AROUND 64

/* Bytes that are enough for the answers to any list of the edges. */
#define LISTED 16384

/* Document 01's listing, and what the completing sheet says to it. */
static const char listing[] = "650 0 760 - 10000 - 3000 4000 30 - - - 2000\n"
                              "851 0 760 - 10000 - 3000 4000 30 - - - 2000\n"
                              "650 90 300 40 10000 - 3000 0 90 - - - 2000\n";
static const char completed[] = "ok 90 10000 3000 5000 2000 emmem\nno 2\nno 10\n";
static const size_t listing_length = sizeof listing - 1;
static const size_t completed_length = sizeof completed - 1;

/* A request whose completion is the longest, and that. */
static const char long_request[] = "650 0 760 - 100000 - 15000 199000 30 200000 - - 10000\n";
static const char longest[] = "ok 90 100000 15000 200000 10000 emmmm\n";

static const char malformed[] = "no 14\n";
static const size_t malformed_length = sizeof malformed - 1;

static uint64_t state;

/* The next number of a sequence that looks random and is the same for the same start. */
static uint64_t next(void)
{
    state += UINT64_C(0x9e3779b97f4a7c15);
    uint64_t mixed = state;
    mixed = (mixed ^ (mixed >> 30)) * UINT64_C(0xbf58476d1ce4e5b9);
    mixed = (mixed ^ (mixed >> 27)) * UINT64_C(0x94d049bb133111eb);
    return mixed ^ (mixed >> 31);
}

static size_t drawn(size_t low, size_t high)
{
    return low + next() % (high - low + 1);
}

/* Where a reader, a part and the room for answers end, and the reader. */
static uint8_t *reader_end;
static uint8_t *part_end;
static uint8_t *out_end;
static uint8_t *reader;

/* Whether the reader is as a begun one. */
static int reader_is_new(void)
{
    uint8_t begun[XANHUPIVE_READER] = {0};
    return xanhupive_reader_begin(begun, sizeof begun) == 0 && memcmp(reader, begun, sizeof begun) == 0;
}

/* What a call is to take: the bytes of a list from one place to another, or its end, which is then there. */
struct offer {
    uint64_t sheet;
    const uint8_t *list;
    size_t from;
    size_t to;
    int closes;
};

/* What a call told and where it wrote, and what is wrong with that, or NULL. */
struct told {
    uint32_t answer;
    uint64_t took;
    uint64_t wrote;
    size_t room;
    const uint8_t *out;
    const char *fault;
};

/* What is wrong with a call that returned 0. */
static const char *fault_of_taken(const struct offer *offer, const struct told *told)
{
    size_t length = offer->to - offer->from;
    if (told->took > length) {
        return "more was taken than offered";
    }
    if (told->wrote > told->room) {
        return "more was written than there is room for";
    }
    if (told->took == 0 && length > 0) {
        return "nothing was taken, and no 16";
    }
    if (told->took < length && told->wrote == 0) {
        return "it stopped with nothing written, and no 16";
    }
    if (told->took < length && offer->list[offer->from + told->took] != '\n') {
        return "it stopped before a byte that is no LF";
    }
    if (!all_are(told->out + told->wrote, out_end, MARK)) {
        return "the bytes behind the answers are not as they were";
    }
    return NULL;
}

/* What is wrong with a call that was refused. */
static const char *fault_of_refused(const struct told *told, const uint8_t *before)
{
    if (memcmp(reader, before, XANHUPIVE_READER) != 0) {
        return "the reader of a refused call is not as it was";
    }
    if (!all_are(told->out, out_end, MARK)) {
        return "the room of a refused call is not as it was";
    }
    if (told->took != MARKED || told->wrote != MARKED) {
        return "the numbers of a refused call are not as they were";
    }
    return NULL;
}

/* Takes a part, whatever the reader; both numbers hold marks before. */
static void take(struct told *told, uint64_t sheet, const uint8_t *part, size_t length, uint8_t *out, size_t room)
{
    told->took = MARKED;
    told->wrote = MARKED;
    told->answer = xanhupive_take_part(
        reader, XANHUPIVE_READER, sheet, part, length, out, room, &told->took, &told->wrote);
}

/* Closes, whatever the reader; a close that is not refused has taken nothing. */
static void close_list(struct told *told, uint8_t *out, size_t room)
{
    told->wrote = MARKED;
    told->answer = xanhupive_close(reader, XANHUPIVE_READER, out, room, &told->wrote);
    told->took = told->answer == 0 ? 0 : MARKED;
}

/* One call with so much room, each thing lent at the end of its page, held to what is promised of every
 * reader. */
static struct told call(const struct offer *offer, size_t room)
{
    uint8_t before[XANHUPIVE_READER];
    size_t length = offer->to - offer->from;
    uint8_t *part = part_end - length;
    uint8_t *out = out_end - room;
    struct told told = {0, 0, 0, room, out, NULL};
    memcpy(before, reader, sizeof before);
    memcpy(part, offer->list + offer->from, length);
    memset(out - AROUND, MARK, AROUND + room);
    if (offer->closes) {
        close_list(&told, out, room);
    } else {
        take(&told, offer->sheet, part, length, out, room);
    }
    if (told.answer != 0 && told.answer != XANHUPIVE_TOO_LONG) {
        told.fault = "neither 0 nor 16";
    } else if (memcmp(part, offer->list + offer->from, length) != 0) {
        told.fault = "the part is not as it was";
    } else if (!all_are(told.out - AROUND, told.out, MARK)) {
        told.fault = "the bytes before the room are not as they were";
    } else {
        told.fault = told.answer == 0 ? fault_of_taken(offer, &told) : fault_of_refused(&told, before);
    }
    return told;
}

/* The answer to a line by itself; gives its length. */
static size_t answer_to(uint64_t sheet, const uint8_t *line, size_t length, uint8_t *out)
{
    if (length > XANHUPIVE_LONGEST_LINE) {
        memcpy(out, malformed, malformed_length);
        return malformed_length;
    }
    return sheet == XANHUPIVE_PREDICTION ? xanhupive_predict_line(line, length, out, XANHUPIVE_LONGEST_ANSWER)
                                         : xanhupive_complete_line(line, length, out, XANHUPIVE_LONGEST_ANSWER);
}

/* How long the first answer is that an offer leads to from some place on, 0 where it leads to none. */
static size_t next_answer(const struct offer *offer, size_t from)
{
    static uint8_t out[XANHUPIVE_LONGEST_ANSWER];
    size_t start = from;
    while (start > 0 && offer->list[start - 1] != '\n') {
        start--;
    }
    if (offer->closes) {
        return start < from ? malformed_length : 0;
    }
    const uint8_t *end = memchr(offer->list + from, '\n', offer->to - from);
    return end == NULL ? 0 : answer_to(offer->sheet, offer->list + start, (size_t)(end - offer->list) - start, out);
}

/* Whether a call stopped, or was refused, exactly where the next answer has no room. */
static int stopped_exactly(const struct offer *offer, const struct told *told)
{
    if (told->answer != 0) {
        return next_answer(offer, offer->from) > told->room;
    }
    size_t at = offer->from + told->took;
    return at == offer->to || told->wrote + next_answer(offer, at) > told->room;
}

/* Calls as a caller should: after a 16 again with the next room. The last has to be enough. */
static struct told offered(const struct offer *offer, const size_t *rooms, size_t count)
{
    struct told told = {XANHUPIVE_TOO_LONG, 0, 0, 0, NULL, NULL};
    for (size_t k = 0; k < count && told.answer == XANHUPIVE_TOO_LONG && told.fault == NULL; k++) {
        told = call(offer, rooms[k]);
        if (told.fault == NULL && !stopped_exactly(offer, &told)) {
            told.fault = "the next answer had room";
        }
    }
    if (told.fault == NULL && told.answer != 0) {
        told.fault = "16 with room for the longest answer";
    }
    return told;
}

/* ---- a list from standard input ---- */

/* Offers with two drawn rooms and then with one for the longest answer, and writes what was answered. */
static size_t answered(const struct offer *offer)
{
    const size_t longest = offer->sheet == XANHUPIVE_PREDICTION ? XANHUPIVE_LONGEST_ANSWER : 40;
    const size_t most = offer->sheet == XANHUPIVE_PREDICTION ? 1000 : 40;
    const size_t rooms[] = {drawn(5, most), drawn(5, most), longest};
    struct told told = offered(offer, rooms, 3);
    if (told.fault != NULL) {
        fprintf(stderr, "parts: at byte %zu: %s\n", offer->from, told.fault);
        exit(1);
    }
    fwrite(told.out, 1, told.wrote, stdout);
    return told.took;
}

static int answer_list(uint64_t sheet)
{
    size_t length;
    uint8_t *list = read_list("parts", &length);
    size_t at = 0;
    xanhupive_reader_begin(reader, XANHUPIVE_READER);
    while (at < length) {
        size_t size = drawn(0, 7);
        struct offer part = {sheet, list, at, size < length - at ? at + size : length, 0};
        at += answered(&part);
    }
    struct offer end = {sheet, list, length, length, 1};
    answered(&end);
    free(list);
    if (!reader_is_new()) {
        fputs("parts: the close left no new reader\n", stderr);
        return 1;
    }
    return fflush(stdout) != 0 || ferror(stdout);
}

/* ---- the edges ---- */

/* What the calls wrote, and what they should. */
static uint8_t written[LISTED];
static size_t written_length;
static uint8_t wanted[LISTED];
static size_t wanted_length;

/* Keeps what a call wrote; gives how much it took. */
static size_t kept(const struct told *told)
{
    expect(told->fault == NULL, told->fault);
    if (told->fault != NULL) {
        return 0;
    }
    if (told->wrote > sizeof written - written_length) {
        expect(0, "no more than the answers to the whole");
        return told->took;
    }
    memcpy(written + written_length, told->out, told->wrote);
    written_length += told->wrote;
    return told->took;
}

static void want(const char *text, size_t length)
{
    memcpy(wanted + wanted_length, text, length);
    wanted_length += length;
}

/* Wants the answers to a list, line by line. */
static void want_whole(const struct offer *list)
{
    size_t start = 0;
    wanted_length = 0;
    for (size_t at = 0; at < list->to; at++) {
        if (list->list[at] == '\n') {
            wanted_length += answer_to(list->sheet, list->list + start, at - start, wanted + wanted_length);
            start = at + 1;
        }
    }
    if (start < list->to) {
        want(malformed, malformed_length);
    }
}

/* Offers a list, its first part of one size and the others of another, with so much room and after a 16 with
 * a byte more, then with the most, and holds what was written to what is wanted. */
static void in_parts(const struct offer *list, size_t first, size_t others, size_t lent)
{
    const size_t rooms[] = {lent, lent + 1, XANHUPIVE_LONGEST_ANSWER};
    struct told told;
    struct offer part = *list;
    part.to = part.from + first;
    written_length = 0;
    xanhupive_reader_begin(reader, XANHUPIVE_READER);
    do {
        told = offered(&part, rooms, 3);
        part.from += kept(&told);
        if (part.from == part.to) {
            part.to = list->to - part.to < others ? list->to : part.to + others;
        }
    } while (told.fault == NULL && part.from < list->to);
    part.closes = 1;
    told = offered(&part, rooms, 3);
    kept(&told);
    expect(written_length == wanted_length, "as many bytes of answers as to the whole");
    expect(memcmp(written, wanted, wanted_length) == 0, "the answers are those to the whole");
    expect(reader_is_new(), "the close leaves a new reader");
}

/* Cuts a list in two at every place. */
static void every_cut(const struct offer *list, size_t lent)
{
    want_whole(list);
    for (size_t cut = 0; cut <= list->to; cut++) {
        in_parts(list, cut, list->to, lent);
    }
}

/* A list and what the completing sheet says to it, in every cut; its last line with and without the LF, by both
 * sheets and in every room that tells a difference. */
static void known_list(const char *list, size_t length, const char *answers, size_t answers_length)
{
    struct offer offer = {XANHUPIVE_COMPLETION, (const uint8_t *)list, 0, length, 0};
    want_whole(&offer);
    expect(wanted_length == answers_length, "the answers known have their length");
    expect(memcmp(wanted, answers, answers_length) == 0, "the answers known have their bytes");
    for (int k = 0; k < 4; k++) {
        offer.sheet = k % 2 == 0 ? XANHUPIVE_COMPLETION : XANHUPIVE_PREDICTION;
        offer.to = k < 2 ? length : length - 1;
        for (size_t lent = 0; lent <= 40; lent++) {
            every_cut(&offer, lent);
        }
        for (size_t lent = 700; lent <= XANHUPIVE_LONGEST_ANSWER; lent += 53) {
            every_cut(&offer, lent);
        }
    }
}

/* A byte, often one of those that lists are made of, an LF as often as asked. */
static uint8_t some_byte(size_t rare)
{
    if (drawn(1, rare) == 1) {
        return '\n';
    }
    return drawn(0, 15) == 0 ? (uint8_t)next() : (uint8_t)"0123456789- "[drawn(0, 11)];
}

/* A list of some length: random bytes, with lines of document 01 among them and bytes of those spoiled. */
static void some_list(uint8_t *list, size_t length)
{
    const size_t rare = drawn(0, 2) == 0 ? 150 : 15;
    for (size_t at = 0; at < length; at++) {
        list[at] = some_byte(rare);
    }
    for (size_t at = drawn(0, 60); at + listing_length <= length; at += drawn(131, 300)) {
        memcpy(list + at, listing, listing_length);
        if (at > 0 && drawn(0, 3) > 0) {
            list[at - 1] = '\n';
        }
        if (drawn(0, 3) == 0) {
            list[at + drawn(0, listing_length - 1)] = some_byte(3);
        }
    }
}

static void random_lists(void)
{
    static uint8_t list[500];
    static const size_t rooms[] = {0, 5, 6, 12, 33, 38, 70, 800};
    for (int round = 0; round < 30; round++) {
        size_t length = drawn(1, sizeof list);
        some_list(list, length);
        for (uint64_t sheet = 0; sheet < 2; sheet++) {
            for (size_t k = 0; k < sizeof rooms / sizeof *rooms; k++) {
                struct offer offer = {sheet, list, 0, length, 0};
                every_cut(&offer, rooms[k]);
            }
        }
    }
}

/* A line of some length with its LF and document 01's listing behind it, or without either. */
static void long_lines(void)
{
    static const size_t lengths[] = {1, 100, 101, 114, 115, 116, 117, 255, 256, 257, 371, 372, 5000, 70000};
    static const size_t sizes[] = {1, 2, 114, 115, 116, 117, 371, 4000};
    static uint8_t list[70000 + sizeof listing];
    for (size_t k = 0; k < sizeof lengths / sizeof *lengths; k++) {
        size_t length = lengths[k];
        memset(list, '1', length);
        list[length] = '\n';
        memcpy(list + length + 1, listing, listing_length);
        for (size_t j = 0; j < sizeof sizes / sizeof *sizes; j++) {
            struct offer unfinished = {XANHUPIVE_COMPLETION, list, 0, length, 0};
            struct offer lines = {XANHUPIVE_COMPLETION, list, 0, length + 1 + listing_length, 0};
            wanted_length = 0;
            want(malformed, malformed_length);
            in_parts(&unfinished, 0, sizes[j], 5);
            want(completed, completed_length);
            in_parts(&lines, 0, sizes[j], 5);
        }
    }
}

/* The close of any reader, lent too little now and then. */
static void any_close(const struct offer *end)
{
    struct told told = call(end, drawn(0, 8));
    expect(told.fault == NULL, told.fault);
    if (told.answer != 0) {
        expect(told.room < malformed_length, "a close with room is not refused");
        told = call(end, malformed_length);
        expect(told.answer == 0 && told.wrote == malformed_length, "a close that was refused has an answer");
    }
    expect(told.wrote == 0 || told.wrote == malformed_length, "a close writes one answer or none");
    expect(memcmp(told.out, malformed, told.wrote) == 0, "a close says that the line is malformed");
    expect(reader_is_new(), "a close leaves a new reader");
}

/* Readers of any bytes, each last byte among them: no more than is promised of every reader can be asked. */
static void any_readers(void)
{
    static uint8_t list[60];
    for (size_t round = 0; round < 100000; round++) {
        size_t length = drawn(0, sizeof list);
        struct offer part = {round / 256 % 2, list, 0, length, 0};
        struct offer end = {round / 256 % 2, list, length, length, 1};
        for (size_t k = 0; k < length; k++) {
            list[k] = some_byte(10);
        }
        for (size_t k = 0; k < XANHUPIVE_READER; k++) {
            reader[k] = round % 3 == 0 ? (uint8_t)next() : some_byte(100);
        }
        reader[XANHUPIVE_READER - 1] = (uint8_t)round;
        struct told told = call(&part, drawn(0, 50));
        expect(told.fault == NULL, told.fault);
        any_close(&end);
    }
}

/* A part, or a close, with a reader of so many bytes or for what is no sheet: misuse, and all is as it was. */
static void misused(uint8_t *lent, size_t length, uint64_t sheet, int closes)
{
    const uint8_t *part = (const uint8_t *)listing;
    const size_t parts[] = {0, 3, listing_length};
    const size_t rooms[] = {0, 5, 40, XANHUPIVE_LONGEST_ANSWER};
    for (size_t k = 0; k < 12; k++) {
        size_t room = rooms[k % 4];
        uint8_t *out = out_end - room;
        uint64_t took = MARKED;
        uint64_t wrote = MARKED;
        memset(out - AROUND, MARK, AROUND + room);
        memset(reader_end - length - AROUND, MARK, AROUND + length);
        uint32_t answer = closes
            ? xanhupive_close(lent, length, out, room, &wrote)
            : xanhupive_take_part(lent, length, sheet, part, parts[k / 4], out, room, &took, &wrote);
        expect(answer == XANHUPIVE_MISUSE, "a call that is wrong in itself");
        expect(took == MARKED && wrote == MARKED, "its numbers are as they were");
        expect(all_are(out - AROUND, out_end, MARK), "its room is as it was");
        expect(all_are(reader_end - length - AROUND, reader_end, MARK), "its reader is as it was");
    }
}

static void misuse(void)
{
    const uint64_t high = UINT64_C(1) << 32;
    const uint64_t no_sheets[] = {2, 3, 255, 256, 257, 65536, high, high + 1, high << 31, UINT64_MAX};
    for (size_t length = 0; length < XANHUPIVE_READER; length++) {
        memset(reader_end - length - AROUND, MARK, AROUND + length);
        uint32_t answer = xanhupive_reader_begin(reader_end - length, length);
        expect(answer == XANHUPIVE_MISUSE, "a reader too short to begin");
        expect(all_are(reader_end - length - AROUND, reader_end, MARK), "it is as it was");
        for (uint64_t sheet = 0; sheet < 3; sheet++) {
            misused(reader_end - length, length, sheet, 0);
        }
        misused(reader_end - length, length, 0, 1);
    }
    expect(xanhupive_reader_begin(NULL, 0) == XANHUPIVE_MISUSE, "no reader to begin");
    misused(NULL, 0, XANHUPIVE_COMPLETION, 0);
    misused(NULL, 0, XANHUPIVE_PREDICTION, 0);
    misused(NULL, 0, 0, 1);
    for (size_t k = 0; k < sizeof no_sheets / sizeof *no_sheets; k++) {
        misused(reader, XANHUPIVE_READER, no_sheets[k], 0);
    }
}

static void null_with_length_0(void)
{
    struct told told;
    xanhupive_reader_begin(reader, XANHUPIVE_READER);
    for (uint64_t sheet = 0; sheet < 2; sheet++) {
        take(&told, sheet, NULL, 0, NULL, 0);
        expect(told.answer == 0 && told.took == 0 && told.wrote == 0, "nothing taken, no room");
        expect(reader_is_new(), "the reader is a new one still");
    }
    close_list(&told, NULL, 0);
    expect(told.answer == 0 && told.wrote == 0, "an empty list closed, no room");
    expect(reader_is_new(), "and the reader a new one");

    const uint8_t *part = (const uint8_t *)listing;
    uint8_t out[34] = {0};
    take(&told, XANHUPIVE_COMPLETION, part, 43, NULL, 0);
    expect(told.answer == 0 && told.took == 43 && told.wrote == 0, "a part without LF, no room");
    take(&told, XANHUPIVE_COMPLETION, part + 43, 1, NULL, 0);
    expect(told.answer == XANHUPIVE_TOO_LONG && told.took == MARKED && told.wrote == MARKED, "its LF, no room");
    close_list(&told, NULL, 0);
    expect(told.answer == XANHUPIVE_TOO_LONG && told.wrote == MARKED, "its close, no room");
    take(&told, XANHUPIVE_COMPLETION, part + 43, 1, out, 33);
    expect(told.answer == 0 && told.took == 1 && told.wrote == 33, "its LF, with room");
    expect(memcmp(out, completed, 33) == 0 && out[33] == 0, "and its answer");
}

/* What stands behind the reader's own bytes is not written. */
static void longer_readers(void)
{
    const uint8_t *part = (const uint8_t *)listing;
    for (size_t more = 0; more <= AROUND; more++) {
        size_t length = XANHUPIVE_READER + more;
        uint8_t *lent = reader_end - length;
        uint8_t out[64] = {0};
        uint64_t took = 0;
        uint64_t wrote = 0;
        memset(lent - AROUND, MARK, AROUND + length);
        uint32_t answer = xanhupive_reader_begin(lent, length);
        expect(answer == 0, "a longer reader begun");
        answer = xanhupive_take_part(lent, length, 0, part, listing_length, out, sizeof out, &took, &wrote);
        expect(answer == 0 && took == listing_length && wrote == completed_length, "the listing with it");
        expect(memcmp(out, completed, completed_length) == 0, "the listing's answers");
        answer = xanhupive_take_part(lent, length, 0, part, 5, out, sizeof out, &took, &wrote);
        expect(answer == 0 && took == 5 && wrote == 0, "a piece of a line with it");
        answer = xanhupive_close(lent, length, out, sizeof out, &wrote);
        expect(answer == 0 && wrote == malformed_length, "the close with it");
        expect(memcmp(out, malformed, malformed_length) == 0, "the close's answer");
        expect(all_are(lent + XANHUPIVE_READER, reader_end, MARK), "the bytes behind the reader are as they were");
        expect(all_are(lent - AROUND, lent, MARK), "and those before it");
    }
}

static int edges(void)
{
    state = 1;
    misuse();
    null_with_length_0();
    longer_readers();
    known_list(listing, listing_length, completed, completed_length);
    known_list(long_request, sizeof long_request - 1, longest, XANHUPIVE_LONGEST_COMPLETION);
    long_lines();
    random_lists();
    any_readers();
    return counted("parts");
}

/* Arguments that are none. */
static void usage(void)
{
    fputs("parts [SEED [0|1]]\n", stderr);
    exit(2);
}

/* A whole number that an argument is, from 0 up to a limit. */
static uint64_t number(const char *word, uint64_t limit)
{
    char *end;
    unsigned long long value = strtoull(word, &end, 10);
    if (word[0] < '0' || word[0] > '9' || *end != '\0' || value > limit) {
        usage();
    }
    return value;
}

int main(int count, char **words)
{
    reader_end = page_end();
    part_end = page_end();
    out_end = page_end();
    reader = reader_end - XANHUPIVE_READER;
    if (count < 2) {
        return edges();
    }
    if (count > 3) {
        usage();
    }
    state = number(words[1], UINT64_MAX);
    return answer_list(count == 3 ? number(words[2], 1) : XANHUPIVE_COMPLETION);
}
