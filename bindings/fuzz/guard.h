/* Areas that end at a page which must not be touched: the archive has no sanitizer's marks of its own, so a byte past an area has to trap. */
#ifndef GUARD_H
#define GUARD_H

#include <stdbool.h>
#include <stdint.h>
#include <stdio.h>
#include <stdlib.h>
#include <string.h>
#include <sys/mman.h>
#include <unistd.h>

struct guard {
    uint8_t *start;
    size_t room; /* up to the page */
};

static inline void must(bool held, const char *what)
{
    if (!held) {
        fprintf(stderr, "fuzz: it must hold: %s\n", what);
        abort();
    }
}

/* How often each refusal was answered, printed at the end: what the inputs reached. */
static unsigned long long tally[12];

static inline void print_tally(void)
{
    fprintf(stderr, "answers 0 to 11:");
    for (int k = 0; k < 12; k++)
        fprintf(stderr, " %llu", tally[k]);
    fprintf(stderr, "\n");
}

static inline void count(uint32_t refusal)
{
    static bool asked;
    if (!asked)
        asked = atexit(print_tally) == 0;
    tally[refusal % 12]++;
}

/* An area of so many bytes that ends at the page. */
static inline void *area_of(struct guard *g, size_t size)
{
    size_t page = (size_t)sysconf(_SC_PAGESIZE), need = (size + page) / page * page;
    if (g->room < need) {
        void *at = mmap(NULL, need + page, PROT_READ | PROT_WRITE, MAP_PRIVATE | MAP_ANONYMOUS, -1, 0);
        must(at != MAP_FAILED && mprotect((uint8_t *)at + need, page, PROT_NONE) == 0, "a page to guard an area");
        if (g->start != NULL)
            munmap(g->start, g->room + page);
        g->start = (uint8_t *)at;
        g->room = need;
    }
    return g->start + g->room - size;
}

/* The same, with a copy; the same, full of a byte. */
static inline void *copied(struct guard *g, const void *from, size_t size)
{
    return memcpy(area_of(g, size), from, size);
}

static inline void *filled(struct guard *g, uint8_t byte, size_t size)
{
    return memset(area_of(g, size), byte, size);
}

/* Whether the bytes from one place to another are all the same byte: the first is, and each is as the one before it. memcmp takes a fraction of what a loop under
 * the sanitizers does. */
static inline bool all_are(const void *area, size_t from, size_t to, uint8_t byte)
{
    const uint8_t *at = (const uint8_t *)area + from;
    return to <= from || (at[0] == byte && memcmp(at, at + 1, to - from - 1) == 0);
}

#endif
