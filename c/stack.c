/* How deep the stack of each function of xanhupive.h gets, measured and held to the header's figures.
 *
 *     stack < list
 *
 * Each function is called with the lines of the list on a stack of its own, of which every byte held one pattern
 * before. The lowest byte that has changed tells how far below its caller's stack pointer the deepest of the calls
 * came, its return address counted. What memcpy and memset of the C library use is counted as they are called.
 * Prints a line a function: its name, the bytes measured, the header's.
 *
 * No measured depth may be above the header's; nor may the header's, which is rounded up to sixteen bytes, be more
 * than an eighth above the measured one, so that it does not stay behind when the code changes. Needs x86-64, as the
 * library does. Compiled with CONTROLLER and linked with libcontroller.a, it measures xanhupive_measure there. */
#include "checks.h"

#include <string.h>

#include "list.h"
#include "xanhupive.h"

/* What a library may lack. */
#pragma weak xanhupive_complete_line
#pragma weak xanhupive_predict_line
#pragma weak xanhupive_spectrum
#pragma weak xanhupive_period
#pragma weak xanhupive_reader_begin
#pragma weak xanhupive_take_part
#pragma weak xanhupive_close
#pragma weak xanhupive_pack
#pragma weak xanhupive_unpack
#pragma weak xanhupive_file_records
#pragma weak xanhupive_record_spectrum
#pragma weak xanhupive_record_answer

/* Bytes of the painted stack: several times what any function uses. */
#define ROOM 65536

/* The most arguments of a function, each a word. The first six go in registers. */
#define WORDS 9

/* Bytes of the painted stack above the caller's stack pointer: the other three, and eight that align it. */
#define ABOVE 32

/* A function, whatever its arguments. */
typedef void function(void);

/* Calls a function on the stack that ends at `top`, a multiple of 16. It puts nothing there but the arguments
 * that go by the stack, so that all below them is the function's own; a compiler's call would have a frame there. */
uint64_t call_on(uint8_t *top, function *called, const uint64_t *words);
__asm__(".pushsection .text\n"
        ".globl call_on\n"
        ".type call_on, @function\n"
        "call_on:\n"
        "    push %rbp\n"
        "    mov %rsp, %rbp\n"
        "    lea -8(%rdi), %rsp\n"
        "    mov %rsi, %rax\n"
        "    mov %rdx, %r10\n"
        "    push 64(%r10)\n"
        "    push 56(%r10)\n"
        "    push 48(%r10)\n"
        "    mov 40(%r10), %r9\n"
        "    mov 32(%r10), %r8\n"
        "    mov 24(%r10), %rcx\n"
        "    mov 16(%r10), %rdx\n"
        "    mov 8(%r10), %rsi\n"
        "    mov (%r10), %rdi\n"
        "    call *%rax\n"
        "    mov %rbp, %rsp\n"
        "    pop %rbp\n"
        "    ret\n"
        ".size call_on, . - call_on\n"
        ".popsection\n");

/* The painted stack's lowest byte. */
static uint8_t *bottom;

/* Makes it, above a page that may not be touched: a function that uses more than all of it ends the run. */
static void make_stack(void)
{
    size_t page = (size_t)sysconf(_SC_PAGESIZE);
    uint8_t *at = mmap(NULL, page + ROOM, PROT_READ | PROT_WRITE, MAP_PRIVATE | MAP_ANONYMOUS, -1, 0);
    if (at == MAP_FAILED || mprotect(at, page, PROT_NONE) != 0) {
        perror("mmap");
        _exit(1);
    }
    bottom = at + page;
}

/* How far below the caller's stack pointer the pattern has changed. */
static size_t depth(uint8_t pattern)
{
    size_t kept = 0;
    while (kept < ROOM - ABOVE && bottom[kept] == pattern) {
        kept++;
    }
    return ROOM - ABOVE - kept;
}

/* The arguments of a call, those that it does not have being 0; and a pointer as one of them. */
#define GIVEN(...) ((const uint64_t[WORDS]){__VA_ARGS__})
#define AT(pointer) ((uint64_t)(uintptr_t)(pointer))

/* Calls a function that returns a size on the painted stack, or one that returns a refusal, which is a half word. */
static size_t sized(function *called, const uint64_t *words)
{
    return call_on(bottom + ROOM, called, words);
}

static uint32_t refused(function *called, const uint64_t *words)
{
    return (uint32_t)call_on(bottom + ROOM, called, words);
}

/* A line of the list: which it is, its bytes without the LF, and how many there are from there to the list's end. */
struct line {
    size_t number;
    const uint8_t *bytes;
    size_t length;
    size_t left;
};

/* What is lent. */
static uint8_t reader[XANHUPIVE_READER];
static uint8_t out[XANHUPIVE_LONGEST_ANSWER];
static double rows[XANHUPIVE_NUMBERS];
static double median, total;
static uint64_t took, wrote;
static uint8_t file[XANHUPIVE_FILE_HEAD + XANHUPIVE_RECORD];
static uint8_t list_back[XANHUPIVE_LONGEST_LINE + 1];

/* ---- the calls of each function with a line; what they answer is what the function answers on any stack ---- */

/* A line completed: with no room for its answer, and with enough. */
static void complete_line(function *called, const struct line *line)
{
    size_t answer = xanhupive_complete_line(line->bytes, line->length, out, sizeof out);
    expect(sized(called, GIVEN(AT(line->bytes), line->length, AT(out), 0)) == 0, "no room to complete");
    expect(sized(called, GIVEN(AT(line->bytes), line->length, AT(out), sizeof out)) == answer, "a line completed");
}

/* A line predicted: with no room for its answer, and with enough. */
static void predict_line(function *called, const struct line *line)
{
    size_t answer = xanhupive_predict_line(line->bytes, line->length, out, sizeof out);
    expect(sized(called, GIVEN(AT(line->bytes), line->length, AT(out), 0)) == 0, "no room to predict");
    expect(sized(called, GIVEN(AT(line->bytes), line->length, AT(out), sizeof out)) == answer, "a line predicted");
}

/* One measure: each in turn, and one that there is not. */
static void measure(function *called, const struct line *line)
{
    uint64_t which = line->number % (XANHUPIVE_MEASURES + 1);
    uint32_t answer = xanhupive_measure(line->bytes, line->length, which, &median, &total);
    const uint64_t *given = GIVEN(AT(line->bytes), line->length, which, AT(&median), AT(&total));
    expect(refused(called, given) == answer, "one measure");
}

/* A spectrum: with one number too few, and with enough. */
static void spectrum(function *called, const struct line *line)
{
    uint32_t few = xanhupive_spectrum(line->bytes, line->length, rows, XANHUPIVE_NUMBERS - 1);
    uint32_t enough = xanhupive_spectrum(line->bytes, line->length, rows, XANHUPIVE_NUMBERS);
    const uint64_t *given = GIVEN(AT(line->bytes), line->length, AT(rows), XANHUPIVE_NUMBERS - 1);
    expect(refused(called, given) == few, "a number too few for a spectrum");
    given = GIVEN(AT(line->bytes), line->length, AT(rows), XANHUPIVE_NUMBERS);
    expect(refused(called, given) == enough, "a spectrum");
}

/* A period in turn: at every other line a tabulated one, or one beside the shortest, 0.25 s or the longest. */
static uint64_t period_for(const struct line *line)
{
    static const uint64_t some[] = {
        9,   10,  11,  20,   30,   50,   75,   100,  150,  200,  249,  250,   251,   300,
        400, 500, 750, 1000, 1500, 2000, 3000, 4000, 5000, 7500, 9999, 10000, 10001,
    };
    const size_t count = sizeof some / sizeof *some;
    const size_t range = XANHUPIVE_LONGEST_PERIOD - XANHUPIVE_SHORTEST_PERIOD + 1;
    size_t turn = line->number / 2;
    return line->number % 2 == 0 ? some[turn % count] : XANHUPIVE_SHORTEST_PERIOD + turn * 7919 % range;
}

/* One period: with a number too few, and with enough. */
static void period(function *called, const struct line *line)
{
    uint64_t at = period_for(line);
    uint32_t few = xanhupive_period(line->bytes, line->length, at, rows, XANHUPIVE_COLUMNS - 1);
    uint32_t enough = xanhupive_period(line->bytes, line->length, at, rows, XANHUPIVE_COLUMNS);
    const uint64_t *given = GIVEN(AT(line->bytes), line->length, at, AT(rows), XANHUPIVE_COLUMNS - 1);
    expect(refused(called, given) == few, "a number too few for a period");
    given = GIVEN(AT(line->bytes), line->length, at, AT(rows), XANHUPIVE_COLUMNS);
    expect(refused(called, given) == enough, "one period");
}

/* A reader begun, and one that is too short. */
static void reader_begin(function *called, const struct line *line)
{
    size_t less = line->number % XANHUPIVE_READER;
    expect(refused(called, GIVEN(AT(reader), less)) == XANHUPIVE_MISUSE, "a reader too short");
    expect(refused(called, GIVEN(AT(reader), sizeof reader)) == 0, "a reader begun");
}

/* How many bytes of a line go before the others: none, one and so on in turn. */
static size_t cut_of(const struct line *line)
{
    return line->number % (line->length + 1);
}

/* Takes a part for a sheet, with so much room. */
static uint32_t part_taken(function *called, uint64_t sheet, const uint8_t *part, size_t length, size_t room)
{
    const uint64_t *given =
        GIVEN(AT(reader), sizeof reader, sheet, AT(part), length, AT(out), room, AT(&took), AT(&wrote));
    return refused(called, given);
}

/* A list in parts, by both sheets and by what is none: the first bytes of a line, then all to the list's end, with no
 * room and with room for an answer at least. */
static void take_part(function *called, const struct line *line)
{
    size_t cut = cut_of(line);
    size_t left = line->left - cut;
    const uint8_t *others = line->bytes + cut;
    int ends = line->left > line->length;
    for (uint64_t sheet = XANHUPIVE_COMPLETION; sheet <= XANHUPIVE_PREDICTION; sheet++) {
        xanhupive_reader_begin(reader, sizeof reader);
        uint32_t answer = part_taken(called, sheet, line->bytes, cut, sizeof out);
        expect(answer == 0 && took == cut, "the first bytes of a line");
        answer = part_taken(called, sheet, others, left, 0);
        expect(answer == (ends ? XANHUPIVE_TOO_LONG : 0), "no room for its answer");
        answer = part_taken(called, sheet, others, left, sizeof out);
        expect(answer == 0 && (left == 0 || took > 0) && (wrote > 0) == ends, "the line's others, and the list's");
    }
    uint32_t answer = part_taken(called, XANHUPIVE_PREDICTION + 1, others, left, sizeof out);
    expect(answer == XANHUPIVE_MISUSE, "what is no sheet");
}

/* A list's end, behind the first bytes of a line: with no room for the answer, with enough, and again. */
static void close_list(function *called, const struct line *line)
{
    size_t cut = cut_of(line);
    const uint64_t *none = GIVEN(AT(reader), sizeof reader, AT(out), 0, AT(&wrote));
    const uint64_t *enough = GIVEN(AT(reader), sizeof reader, AT(out), sizeof out, AT(&wrote));
    xanhupive_reader_begin(reader, sizeof reader);
    xanhupive_take_part(reader, sizeof reader, XANHUPIVE_COMPLETION, line->bytes, cut, out, sizeof out, &took, &wrote);
    expect(refused(called, none) == (cut > 0 ? XANHUPIVE_TOO_LONG : 0), "no room to close");
    expect(refused(called, enough) == 0, "a list closed");
    expect(refused(called, none) == 0 && wrote == 0, "and closed again");
}

/* How many bytes a line has with its LF, where it has one. */
static size_t with_end(const struct line *line)
{
    return line->length + (line->left > line->length);
}

/* A line as a file: with a byte too few, and with enough. */
static void pack(function *called, const struct line *line)
{
    size_t size = with_end(line);
    uint32_t few = xanhupive_pack(line->bytes, size, file, sizeof file - 1, &wrote);
    uint32_t enough = xanhupive_pack(line->bytes, size, file, sizeof file, &wrote);
    const uint64_t *given = GIVEN(AT(line->bytes), size, AT(file), sizeof file - 1, AT(&wrote));
    expect(refused(called, given) == few, "a byte too few for a file");
    given = GIVEN(AT(line->bytes), size, AT(file), sizeof file, AT(&wrote));
    expect(refused(called, given) == enough, "a file");
}

/* The file of a line, or the last one that there was: with no room, and with enough; and cut short. */
static void unpack(function *called, const struct line *line)
{
    xanhupive_pack(line->bytes, with_end(line), file, sizeof file, &wrote);
    uint32_t none = xanhupive_unpack(file, sizeof file, list_back, 0, &wrote);
    uint32_t enough = xanhupive_unpack(file, sizeof file, list_back, sizeof list_back, &wrote);
    const uint64_t *given = GIVEN(AT(file), sizeof file, AT(list_back), 0, AT(&wrote));
    expect(refused(called, given) == none, "no room for a list");
    given = GIVEN(AT(file), sizeof file, AT(list_back), sizeof list_back, AT(&wrote));
    expect(refused(called, given) == enough, "a list");
    given = GIVEN(AT(file), line->number % sizeof file, AT(list_back), sizeof list_back, AT(&wrote));
    expect(refused(called, given) != 0, "a file cut short");
}

/* The same looked through, and cut short. */
static void file_records(function *called, const struct line *line)
{
    xanhupive_pack(line->bytes, with_end(line), file, sizeof file, &wrote);
    uint32_t answer = xanhupive_file_records(file, sizeof file, &took);
    expect(refused(called, GIVEN(AT(file), sizeof file, AT(&took))) == answer, "a file looked through");
    expect(refused(called, GIVEN(AT(file), line->number % sizeof file, AT(&took))) != 0, "a file cut short");
}

/* A record's spectrum: with one number too few, with enough, and of too few bytes. */
static void record_spectrum(function *called, const struct line *line)
{
    const uint8_t *record = file + XANHUPIVE_FILE_HEAD;
    xanhupive_pack(line->bytes, with_end(line), file, sizeof file, &wrote);
    uint32_t few = xanhupive_record_spectrum(record, XANHUPIVE_RECORD, rows, XANHUPIVE_NUMBERS - 1);
    uint32_t enough = xanhupive_record_spectrum(record, XANHUPIVE_RECORD, rows, XANHUPIVE_NUMBERS);
    const uint64_t *given = GIVEN(AT(record), XANHUPIVE_RECORD, AT(rows), XANHUPIVE_NUMBERS - 1);
    expect(refused(called, given) == few, "a number too few for a record's spectrum");
    given = GIVEN(AT(record), XANHUPIVE_RECORD, AT(rows), XANHUPIVE_NUMBERS);
    expect(refused(called, given) == enough, "a record's spectrum");
    given = GIVEN(AT(record), line->number % XANHUPIVE_RECORD, AT(rows), XANHUPIVE_NUMBERS);
    expect(refused(called, given) == XANHUPIVE_MISUSE, "a record too short");
}

/* A record's answer, by both sheets and by what is none: with no room, and with enough. */
static void record_answer(function *called, const struct line *line)
{
    const uint8_t *record = file + XANHUPIVE_FILE_HEAD;
    xanhupive_pack(line->bytes, with_end(line), file, sizeof file, &wrote);
    for (uint64_t sheet = XANHUPIVE_COMPLETION; sheet <= XANHUPIVE_PREDICTION + 1; sheet++) {
        for (size_t room = 0; room <= sizeof out; room += sizeof out) {
            uint32_t answer = xanhupive_record_answer(record, XANHUPIVE_RECORD, sheet, out, room, &wrote);
            const uint64_t *given = GIVEN(AT(record), XANHUPIVE_RECORD, sheet, AT(out), room, AT(&wrote));
            expect(refused(called, given) == answer, "a record's answer");
        }
    }
}

/* ---- the depths ---- */

/* What the header says of xanhupive_measure: the controller's library has another figure. */
#ifdef CONTROLLER
#define MEASURE_STATED XANHUPIVE_STACK_CONTROLLER
#else
#define MEASURE_STATED XANHUPIVE_STACK_MEASURE
#endif

/* The functions, how each is called with a line, and what the header says. */
static const struct measured {
    const char *name;
    function *called;
    void (*calls)(function *called, const struct line *line);
    size_t stated;
} FUNCTIONS[] = {
    {"xanhupive_complete_line", (function *)xanhupive_complete_line, complete_line, XANHUPIVE_STACK_COMPLETE_LINE},
    {"xanhupive_predict_line", (function *)xanhupive_predict_line, predict_line, XANHUPIVE_STACK_PREDICT_LINE},
    {"xanhupive_measure", (function *)xanhupive_measure, measure, MEASURE_STATED},
    {"xanhupive_spectrum", (function *)xanhupive_spectrum, spectrum, XANHUPIVE_STACK_SPECTRUM},
    {"xanhupive_period", (function *)xanhupive_period, period, XANHUPIVE_STACK_PERIOD},
    {"xanhupive_reader_begin", (function *)xanhupive_reader_begin, reader_begin, XANHUPIVE_STACK_READER_BEGIN},
    {"xanhupive_take_part", (function *)xanhupive_take_part, take_part, XANHUPIVE_STACK_TAKE_PART},
    {"xanhupive_close", (function *)xanhupive_close, close_list, XANHUPIVE_STACK_CLOSE},
    {"xanhupive_pack", (function *)xanhupive_pack, pack, XANHUPIVE_STACK_PACK},
    {"xanhupive_unpack", (function *)xanhupive_unpack, unpack, XANHUPIVE_STACK_UNPACK},
    {"xanhupive_file_records", (function *)xanhupive_file_records, file_records, XANHUPIVE_STACK_FILE_RECORDS},
    {"xanhupive_record_spectrum", (function *)xanhupive_record_spectrum, record_spectrum,
     XANHUPIVE_STACK_RECORD_SPECTRUM},
    {"xanhupive_record_answer", (function *)xanhupive_record_answer, record_answer, XANHUPIVE_STACK_RECORD_ANSWER},
};

/* Calls a function with each line of a list. */
static void each_line(const struct measured *measured, const uint8_t *list, size_t length)
{
    struct line line = {0, list, 0, length};
    while (line.left > 0) {
        const uint8_t *end = memchr(line.bytes, '\n', line.left);
        line.length = end == NULL ? line.left : (size_t)(end - line.bytes);
        measured->calls(measured->called, &line);
        size_t size = line.length + (end != NULL);
        line = (struct line){line.number + 1, line.bytes + size, 0, line.left - size};
    }
}

/* How deep a function comes over a list. The first round does not count: at its first call a name of the C library may
 * have to be looked up, on the stack of that call. A byte that was written may be one pattern, but not both. */
static size_t deepest(const struct measured *measured, const uint8_t *list, size_t length)
{
    static const uint8_t patterns[] = {0xa5, 0xa5, 0x5a};
    size_t most = 0;
    for (size_t round = 0; round < sizeof patterns; round++) {
        memset(bottom, patterns[round], ROOM);
        each_line(measured, list, length);
        size_t came = depth(patterns[round]);
        most = round > 0 && came > most ? came : most;
    }
    return most;
}

int main(void)
{
    size_t length;
    uint8_t *list = read_list("stack", &length);
    make_stack();
    for (size_t k = 0; k < sizeof FUNCTIONS / sizeof *FUNCTIONS; k++) {
        const struct measured *measured = &FUNCTIONS[k];
        if (measured->called != NULL) {
            size_t most = deepest(measured, list, length);
            printf("%-26s%8zu%8zu\n", measured->name, most, measured->stated);
            expect(most <= measured->stated, "no call goes deeper than the header says");
            expect(measured->stated < most + most / 8 + 16, "the header says at most an eighth more than was measured");
        }
    }
    free(list);
    return counted("stack");
}
