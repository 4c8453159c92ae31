/* What the tests in C share: what holds and what does not, counted; pages behind which nothing may be
 * touched; marks. What not every test uses is inline. To be included first. */
#ifndef XANHUPIVE_CHECKS_H
#define XANHUPIVE_CHECKS_H

#define _DEFAULT_SOURCE
#include <stdint.h>
#include <stdio.h>
#include <sys/mman.h>
#include <unistd.h>

/* How many failures are told. */
#define SHOWN 20

static unsigned long passed;
static unsigned long failed;

/* Counts what should hold; of what does not, the first are told. */
static void expect(int holds, const char *what)
{
    if (holds) {
        passed++;
    } else if (++failed <= SHOWN) {
        printf("FAILED: %s\n", what);
    }
}

/* Tells the counts of a test; gives its exit status. */
static int counted(const char *test)
{
    printf("%s: %lu passed, %lu failed\n", test, passed, failed);
    return failed != 0;
}

/* The end of a readable page, behind which nothing may be touched. */
static inline uint8_t *page_end(void)
{
    size_t page = (size_t)sysconf(_SC_PAGESIZE);
    uint8_t *at = mmap(NULL, 2 * page, PROT_READ | PROT_WRITE, MAP_PRIVATE | MAP_ANONYMOUS, -1, 0);
    if (at == MAP_FAILED || mprotect(at + page, page, PROT_NONE) != 0) {
        perror("mmap");
        _exit(1);
    }
    return at + page;
}

static inline int all_are(const uint8_t *from, const uint8_t *to, uint8_t value)
{
    while (from < to && *from == value) {
        from++;
    }
    return from == to;
}

#endif
