/* The file for site lists, by the functions of xanhupive.h that write it, read it and answer its records.
 *
 *     files            calls at the edges of what is promised, counted
 *     files changes    a list of three lines and its file on standard output, in hex; then the file with every change
 *                      of a byte, with other numbers in a record, every shorter one and some longer ones: a line of
 *                      what was changed, where and to what, what is said to that file, and the list if it is read, in
 *                      hex. second/files.py reads it.
 *
 * Whatever is lent ends at a page that may not be touched, so that a byte read or written past it ends the run. */
#include "checks.h"

#include <stdlib.h>
#include <string.h>

#include "xanhupive.h"

/* What stands in lent bytes and in a number before a call, and how many such bytes before them. */
#define MARK 0xa5
#define MARKED UINT64_C(0xa5a5a5a5a5a5a5a5)
#define AROUND 64

/* By shorter names: bytes of a file before its records and of a record; the most records; the refusals of a file. */
#define HEAD XANHUPIVE_FILE_HEAD
#define RECORD XANHUPIVE_RECORD
#define RECORDS XANHUPIVE_MOST_RECORDS
#define NO_MARK XANHUPIVE_NO_FILE
#define NO_LENGTH XANHUPIVE_FILE_LENGTH
#define NO_FIELD XANHUPIVE_FILE_FIELD

/* The longest line, its LF counted. */
#define LISTED 106

#define COUNT(array) (sizeof(array) / sizeof *(array))

/* Figures of every origin, both signs and the most digits; blanks alone; and a plain line. */
#define LINES 3
static const char list[] = "650 ~-999999 760 ~50 999999 8000 ~3000 4000 -30 ~6000 400 800 ~2000\n"
                           "- - - - - - - - - - - - -\n"
                           "650 0 760 90 10000 8000 3000 4000 30 5000 100 200 2000\n";
static const size_t list_length = sizeof list - 1;
static const char empty_file[HEAD + 1] = "GMQ\0\1\0\0";

/* The file of that list, and room for one with a record more or two. */
static uint8_t file[HEAD + RECORD * (LINES + 2)];
static const size_t file_length = HEAD + RECORD * LINES;

typedef uint32_t conversion(const uint8_t *, size_t, uint8_t *, size_t, uint64_t *);

/* Where what is read ends, and what is written. */
static uint8_t *from_end;
static uint8_t *to_end;

/* What a call says to some bytes, with so much room at the end of the page. Whatever it says, what is read and the
 * bytes around what was written must be as they were; and all, if it was refused. */
static uint32_t said(conversion *convert, const void *bytes, size_t length, size_t room, uint64_t *wrote)
{
    uint8_t *from = from_end - length;
    uint8_t *to = to_end - room;
    memcpy(from, bytes, length);
    memset(to - AROUND, MARK, AROUND + room);
    *wrote = MARKED;
    uint32_t answer = convert(from, length, to, room, wrote);
    expect(memcmp(from, bytes, length) == 0, "what is read is as it was");
    expect(all_are(to - AROUND, to, MARK), "the bytes before are as they were");
    if (answer == 0) {
        expect(*wrote <= room && all_are(to + *wrote, to_end, MARK), "the bytes behind are as they were");
    } else {
        expect(*wrote == MARKED, "the number of a refused call is as it was");
        expect(all_are(to, to_end, MARK), "the bytes of a refused call are as they were");
    }
    return answer;
}

/* Every room that is too small: refused. What is needed, and more: written. */
static void every_room(conversion *convert, const void *bytes, size_t length, const void *made, size_t made_length)
{
    uint64_t wrote;
    for (size_t room = 0; room < made_length; room++) {
        expect(said(convert, bytes, length, room, &wrote) == XANHUPIVE_TOO_LONG, "too little room gives 16");
    }
    for (size_t more = 0; more <= AROUND; more += AROUND) {
        expect(said(convert, bytes, length, made_length + more, &wrote) == 0, "with room enough it is made");
        expect(wrote == made_length, "it has its length");
        expect(memcmp(to_end - made_length - more, made, made_length) == 0, "it has its bytes");
    }
}

/* Refused with a number, whatever the room. */
static void refused(conversion *convert, const void *bytes, size_t length, uint32_t number, const char *what)
{
    const size_t rooms[] = {0, 1, HEAD - 1, HEAD, HEAD + RECORD, HEAD + RECORD * LINES, LISTED * LINES};
    uint64_t wrote;
    for (size_t k = 0; k < COUNT(rooms); k++) {
        expect(said(convert, bytes, length, rooms[k], &wrote) == number, what);
    }
}

/* A list to its file and back. */
static void there_and_back(const char *text)
{
    uint8_t made[HEAD + RECORD * LINES];
    uint64_t wrote;
    size_t length = strlen(text);
    int written = said(xanhupive_pack, text, length, sizeof made, &wrote) == 0 && wrote <= sizeof made;
    expect(written, text);
    if (!written) {
        return;
    }
    memcpy(made, to_end - sizeof made, sizeof made);
    every_room(xanhupive_pack, text, length, made, (size_t)wrote);
    every_room(xanhupive_unpack, made, (size_t)wrote, text, length);
}

/* NULL with length 0: the empty list is a file of seven bytes. */
static void null_with_length_0(void)
{
    uint8_t out[HEAD + 1];
    uint64_t wrote = MARKED;
    memset(out, MARK, sizeof out);
    expect(xanhupive_pack(NULL, 0, NULL, 0, &wrote) == XANHUPIVE_TOO_LONG, "no room for the empty list");
    expect(wrote == MARKED, "the number as it was");
    expect(xanhupive_pack(NULL, 0, out, HEAD, &wrote) == 0 && wrote == HEAD, "the empty list has a file");
    expect(memcmp(out, empty_file, HEAD) == 0 && out[HEAD] == MARK, "of seven bytes");
    expect(xanhupive_unpack(out, HEAD, NULL, 0, &wrote) == 0 && wrote == 0, "which is read as no line, without room");
    wrote = MARKED;
    expect(xanhupive_unpack(NULL, 0, NULL, 0, &wrote) == NO_MARK, "no byte is no file");
    expect(xanhupive_pack((const uint8_t *)"\n", 1, NULL, 0, &wrote) == XANHUPIVE_MALFORMED, "14 comes before 16");
    expect(wrote == MARKED, "the number as it was, twice");
}

/* Lists that go to a file and back; a range is no matter. */
static void lists(void)
{
    static const char *const good[] = {
        "",
        list,
        "650 0 760 - 10000 - 3000 4000 30 - - - 2000\n851 0 760 - 10000 - 3000 4000 30 - - - 2000\n",
        "- 500 0 0 0 0 0 - -500 0 0 0 0\n",
        "~999999 ~-999999 ~999999 ~999999 ~999999 ~999999 ~999999 ~999999 ~-999999 ~999999 ~999999 ~999999 ~999999\n",
        "0 ~0 0 ~0 0 ~0 0 ~0 0 ~0 0 ~0 0\n1 -1 1 1 1 1 1 1 ~-1 1 1 1 1\n",
    };
    for (size_t k = 0; k < COUNT(good); k++) {
        there_and_back(good[k]);
    }
}

/* Lists with something malformed, at either end or between. */
static void malformed_lists(void)
{
    static const char plain[] = "650 0 760 - 10000 - 3000 4000 30 - - - 2000\n";
    static const char *const malformed[] = {
        "\n",
        "x\n",
        "-",
        "650 0 760 - 10000 - 3000 4000 30 - - - 2000",
        "650 0 760 - 10000 - 3000 4000 30 - - - 2000\r\n",
        "650 -0 760 - 10000 - 3000 4000 30 - - - 2000\n",
        "-650 0 760 - 10000 - 3000 4000 30 - - - 2000\n",
        "650 0 760 - 10000 - 3000 4000 30 - - - 1000000\n",
        "650 0 760 - 10000 - 3000 4000 30 - - -\n",
        "650 0 760 - 10000 - 3000 4000 30 - - - ~-\n",
        "650 0 760 - 10000 - 3000 4000 30 - - - -2147483648\n",
    };
    for (size_t k = 0; k < COUNT(malformed); k++) {
        for (int around = 0; around < 4; around++) {
            char text[300];
            snprintf(text, sizeof text, "%s%s%s", around & 1 ? plain : "", malformed[k], around & 2 ? plain : "");
            refused(xanhupive_pack, text, strlen(text), XANHUPIVE_MALFORMED, malformed[k]);
        }
    }
}

/* A file with one byte changed, and cut or made longer with zeros to some length. */
static const uint8_t *changed(size_t place, int value, size_t length)
{
    static uint8_t copy[sizeof file];
    memset(copy, 0, sizeof copy);
    memcpy(copy, file, length < file_length ? length : file_length);
    copy[place] = (uint8_t)value;
    return copy;
}

/* A file with one byte changed and of some length: refused with a number, whatever the room. */
static void turned_away(size_t place, int value, size_t length, uint32_t number, const char *what)
{
    refused(xanhupive_unpack, changed(place, value, length), length, number, what);
}

/* Files that are turned away, and the order of the refusals: a mark before a length, that before a field, that before
 * the room. */
static void refused_files(void)
{
    const size_t whole = file_length, origin = HEAD + 4 * 13;
    turned_away(0, 'g', whole, NO_MARK, "another mark");
    turned_away(4, 2, whole, NO_MARK, "version 2");
    turned_away(3, 1, whole, NO_MARK, "version 257");
    refused(xanhupive_unpack, file, 4, NO_MARK, "four bytes");
    turned_away(4, 2, 6, NO_MARK, "19 comes before 20");
    refused(xanhupive_unpack, file, 5, NO_LENGTH, "five bytes");
    refused(xanhupive_unpack, file, 6, NO_LENGTH, "six bytes");
    refused(xanhupive_unpack, file, HEAD, NO_LENGTH, "no record of three");
    refused(xanhupive_unpack, file, whole - 1, NO_LENGTH, "a byte less");
    turned_away(6, 3, whole + 1, NO_LENGTH, "a byte more");
    turned_away(6, 3, whole + RECORD, NO_LENGTH, "a record more");
    turned_away(6, 2, whole, NO_LENGTH, "a record more than the count");
    turned_away(6, 4, whole, NO_LENGTH, "a record less than the count");
    turned_away(origin, 2, whole - 1, NO_LENGTH, "20 comes before 21");
    turned_away(origin, 2, whole, NO_FIELD, "an estimated figure");
    turned_away(origin, 3, whole, NO_FIELD, "a number that is said to be blank");
    turned_away(origin + RECORD, 0, whole, NO_FIELD, "a blank that is said to be measured");
    turned_away(whole - 1, 4, whole, NO_FIELD, "the last origin");
    turned_away(HEAD + 7, 0xc0, whole, NO_FIELD, "a rake of -1000000");
    turned_away(HEAD + 19, 0x40, whole, NO_FIELD, "a W of 1000000");
}

/* Memory for the longest lists. */
static uint8_t *lent(size_t bytes)
{
    uint8_t *at = malloc(bytes);
    if (at == NULL) {
        perror("malloc");
        exit(1);
    }
    return at;
}

/* The most lines that a file has, in the room that it needs and a byte less; and one line more. */
static void most_lines(void)
{
    static const char line[] = "- - - - - - - - - - - - -\n";
    const size_t one = sizeof line - 1, most = one * RECORDS, need = HEAD + (size_t)RECORD * RECORDS;
    uint8_t *text = lent(most + one + 2);
    uint8_t *made = lent(need);
    uint8_t *again = lent(most);
    uint64_t wrote = MARKED;
    for (size_t at = 0; at <= most; at += one) {
        memcpy(text + at, line, one);
    }
    memcpy(text + most + one, "x\n", 2);
    memset(made, MARK, need);
    memset(again, MARK, most);
    expect(xanhupive_pack(text, most + one + 2, made, need, &wrote) == XANHUPIVE_MALFORMED, "14 comes before 20");
    expect(xanhupive_pack(text, most + one, made, need, &wrote) == NO_LENGTH, "65536 lines");
    expect(xanhupive_pack(text, most + one, NULL, 0, &wrote) == NO_LENGTH, "20 comes before 16");
    expect(xanhupive_pack(text, most, made, need - 1, &wrote) == XANHUPIVE_TOO_LONG, "65535 lines, a byte too little");
    expect(wrote == MARKED && all_are(made, made + need, MARK), "all as it was");
    expect(xanhupive_pack(text, most, made, need, &wrote) == 0 && wrote == need, "65535 lines");
    wrote = MARKED;
    expect(xanhupive_unpack(made, need, again, most - 1, &wrote) == XANHUPIVE_TOO_LONG, "and back, a byte too little");
    expect(wrote == MARKED && all_are(again, again + most, MARK), "all as it was");
    expect(xanhupive_unpack(made, need, again, most, &wrote) == 0 && wrote == most, "65535 records");
    expect(memcmp(again, text, most) == 0, "the same list");
    free(text);
    free(made);
    free(again);
}

/* ---- a file's records ---- */

/* Lines that are accepted, refused by number 2, 10 and 18, and blank. */
static const char *const requests[] = {
    "650 0 760 - 10000 - 3000 4000 30 - - - 2000",
    "800 90 150 45 20000 - 1000 0 90 1000 - - 10000",
    "~650 ~-90 ~300 - - - - 4000 50 - - - -",
    "851 0 760 - 10000 - 3000 4000 30 - - - 2000",
    "650 90 300 40 10000 - 3000 0 90 - - - 2000",
    "650 0 760 - 10000 - 3000 4000 30 13603 - - 2000",
    "- - - - - - - - - - - - -",
};

/* The answer to a record of so many bytes at the end of the page, by a sheet, with so much room; the bytes around what
 * was written must be as they were, and all if it was refused. */
static uint32_t answered(const uint8_t *record, size_t length, uint64_t sheet, size_t room, uint64_t *wrote)
{
    uint8_t *from = from_end - length;
    uint8_t *to = to_end - room;
    memcpy(from, record, length);
    memset(to - AROUND, MARK, AROUND + room);
    *wrote = MARKED;
    uint32_t number = xanhupive_record_answer(from, length, sheet, to, room, wrote);
    size_t written = number == 0 ? (size_t)*wrote : 0;
    expect(number == 0 ? *wrote <= room : *wrote == MARKED, "how much was written of a record's answer");
    expect(all_are(to - AROUND, to, MARK) && all_are(to + written, to_end, MARK), "bytes around a record's answer");
    return number;
}

/* A record's answer is its line's, on both sheets: with every room that is too small refused, in its own room and in more
 * the same bytes. */
static void answers_alike(const uint8_t *record, const char *line)
{
    uint8_t whole[2][XANHUPIVE_LONGEST_ANSWER];
    size_t length[2];
    uint64_t wrote;
    length[0] = xanhupive_complete_line((const uint8_t *)line, strlen(line), whole[0], sizeof whole[0]);
    length[1] = xanhupive_predict_line((const uint8_t *)line, strlen(line), whole[1], sizeof whole[1]);
    for (uint64_t sheet = XANHUPIVE_COMPLETION; sheet <= XANHUPIVE_PREDICTION; sheet++) {
        for (size_t room = 0; room < length[sheet]; room++) {
            expect(answered(record, RECORD, sheet, room, &wrote) == XANHUPIVE_TOO_LONG, "too little room for a record's answer");
        }
        for (size_t more = 0; more < 3; more++) {
            size_t room = length[sheet] + more;
            expect(answered(record, RECORD, sheet, room, &wrote) == 0 && wrote == length[sheet] &&
                       memcmp(to_end - room, whole[sheet], length[sheet]) == 0,
                   "a record's answer is its line's");
        }
    }
    for (size_t few = 0; few < RECORD; few++) {
        expect(answered(record, few, XANHUPIVE_COMPLETION, 100, &wrote) == XANHUPIVE_MISUSE, "too few bytes of a record");
    }
    expect(answered(record, RECORD, XANHUPIVE_PREDICTION + 1, 100, &wrote) == XANHUPIVE_MISUSE, "what is no sheet");
    expect(answered(record, RECORD, UINT64_MAX, 100, &wrote) == XANHUPIVE_MISUSE, "what is no sheet");
}

/* A record's spectrum is its line's; so is the refusal, and with a number too few nothing is written. */
static void spectra_alike(const uint8_t *record, const char *line)
{
    double of_line[XANHUPIVE_NUMBERS + 1], of_record[XANHUPIVE_NUMBERS + 1], marked[XANHUPIVE_NUMBERS + 1];
    memset(marked, MARK, sizeof marked);
    for (size_t lent = XANHUPIVE_NUMBERS - 1; lent <= XANHUPIVE_NUMBERS + 1; lent++) {
        memcpy(of_line, marked, sizeof marked);
        memcpy(of_record, marked, sizeof marked);
        uint32_t number = xanhupive_spectrum((const uint8_t *)line, strlen(line), of_line, lent);
        expect(xanhupive_record_spectrum(record, RECORD, of_record, lent) == number, "the number of a record's spectrum");
        expect(memcmp(of_line, of_record, sizeof marked) == 0, "a record's spectrum is its line's");
    }
    memcpy(of_record, marked, sizeof marked);
    expect(xanhupive_record_spectrum(record, RECORD - 1, of_record, XANHUPIVE_NUMBERS) == XANHUPIVE_MISUSE, "a record cut short");
    uint8_t other[RECORD];
    memcpy(other, record, RECORD);
    other[RECORD - 1] = 2;
    expect(xanhupive_record_spectrum(other, RECORD, of_record, XANHUPIVE_NUMBERS) == NO_FIELD, "an estimated figure");
    expect(memcmp(of_record, marked, sizeof marked) == 0, "numbers beside a refusal");
    uint64_t wrote;
    expect(answered(other, RECORD, XANHUPIVE_PREDICTION, 1000, &wrote) == NO_FIELD, "an estimated figure's answer");
}

/* A file looked through and answered record by record, with all that follows lent too. */
static void records(void)
{
    char text[COUNT(requests) * LISTED] = "";
    uint8_t made[HEAD + RECORD * COUNT(requests)];
    uint64_t wrote, count = MARKED;
    for (size_t k = 0; k < COUNT(requests); k++) {
        strcat(strcat(text, requests[k]), "\n");
    }
    expect(xanhupive_pack((const uint8_t *)text, strlen(text), made, sizeof made, &wrote) == 0 && wrote == sizeof made, "seven lines");
    expect(xanhupive_file_records(made, sizeof made - 1, &count) == NO_LENGTH && count == MARKED, "a file cut short has no count");
    expect(xanhupive_file_records(made, 4, &count) == NO_MARK && count == MARKED, "four bytes have no count");
    made[sizeof made - 1] = 2;
    expect(xanhupive_file_records(made, sizeof made, &count) == NO_FIELD && count == MARKED, "a malformed file has no count");
    made[sizeof made - 1] = 3;
    expect(xanhupive_file_records(made, sizeof made, &count) == 0 && count == COUNT(requests), "how many records");
    for (size_t k = 0; k < count; k++) {
        answers_alike(made + HEAD + RECORD * k, requests[k]);
        spectra_alike(made + HEAD + RECORD * k, requests[k]);
    }
    expect(xanhupive_record_spectrum(NULL, 0, NULL, 0) == XANHUPIVE_MISUSE, "no record");
    expect(answered(made + HEAD, sizeof made - HEAD, XANHUPIVE_COMPLETION, 100, &wrote) == 0, "a record and all that follows");
}

static void print_hex(const uint8_t *bytes, size_t length)
{
    for (size_t k = 0; k < length; k++) {
        printf("%02x", bytes[k]);
    }
}

/* The line of a changed file. */
static void tell(const char *kind, size_t place, long value, const uint8_t *bytes, size_t length)
{
    const size_t room = LISTED * (LINES + 1);
    uint64_t wrote;
    uint32_t answer = said(xanhupive_unpack, bytes, length, room, &wrote);
    printf("%s %zu %ld %u", kind, place, value, (unsigned)answer);
    if (answer == 0) {
        putchar(' ');
        print_hex(to_end - room, wrote < room ? (size_t)wrote : room);
    }
    putchar('\n');
}

/* Every byte changed to every other. */
static void tell_bytes(void)
{
    for (size_t place = 0; place < file_length; place++) {
        for (int value = 0; value < 256; value++) {
            if (value != file[place]) {
                tell("byte", place, value, changed(place, value, file_length), file_length);
            }
        }
    }
}

/* Numbers on both sides of what text can hold, in each field of the plain record. */
static void tell_numbers(void)
{
    const long numbers[] = {-2147483647 - 1, -2147483647, -1000000, -999999, -1, 999999, 1000000};
    for (size_t place = file_length - RECORD; place < file_length - 13; place += 4) {
        for (size_t k = 0; k < COUNT(numbers); k++) {
            uint8_t other[sizeof file];
            memcpy(other, file, file_length);
            for (int n = 0; n < 4; n++) {
                other[place + n] = (uint8_t)((unsigned long)numbers[k] >> (24 - 8 * n));
            }
            tell("number", place, numbers[k], other, file_length);
        }
    }
}

/* Every shorter file; longer ones; and the count one more, with a record that is one byte again and again. */
static void tell_lengths(void)
{
    const size_t longer[] = {1, 2, RECORD - 1, RECORD, RECORD + 1, 2 * RECORD};
    const int values[] = {0, 3, 255};
    for (size_t length = 0; length < file_length; length++) {
        tell("cut", length, 0, file, length);
    }
    for (size_t k = 0; k < COUNT(longer); k++) {
        for (size_t n = 0; n < COUNT(values); n++) {
            memset(file + file_length, values[n], longer[k]);
            tell("longer", longer[k], values[n], file, file_length + longer[k]);
        }
    }
    file[HEAD - 1]++;
    for (int value = 0; value < 256; value++) {
        memset(file + file_length, value, RECORD);
        tell("record", file_length, value, file, file_length + RECORD);
    }
}

/* The list and its file, and then all changes of it. */
static void changes(void)
{
    printf("list ");
    print_hex((const uint8_t *)list, list_length);
    printf("\nfile ");
    print_hex(file, file_length);
    putchar('\n');
    tell_bytes();
    tell_numbers();
    tell_lengths();
}

int main(int count, char **words)
{
    uint64_t wrote = 0;
    from_end = page_end();
    to_end = page_end();
    if (count > 2 || (count == 2 && strcmp(words[1], "changes") != 0)) {
        fputs("files [changes]\n", stderr);
        return 2;
    }
    expect(xanhupive_pack((const uint8_t *)list, list_length, file, file_length, &wrote) == 0, "a file of three lines");
    expect(wrote == file_length, "has three records");
    if (count == 2) {
        changes();
        return failed != 0;
    }
    null_with_length_0();
    lists();
    malformed_lists();
    refused_files();
    most_lines();
    records();
    return counted("files");
}
