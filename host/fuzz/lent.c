/* Memory whose borders fault, and what is said of a violation. */
#define _DEFAULT_SOURCE
#include "fuzz.h"

#include <inttypes.h>
#include <stdio.h>
#include <stdlib.h>
#include <string.h>
#include <sys/mman.h>

enum { PAGE = 4096 };

enum { FUNCTIONS = 64 };

bool counting = false;

static const char *function = "nothing";
static struct { const char *function; uint32_t numbers; } seen[FUNCTIONS];

void about(const char *name)
{
    function = name;
}

static void count(uint64_t number)
{
    unsigned i = 0;
    while (i < FUNCTIONS - 1 && seen[i].function && strcmp(seen[i].function, function)) i++;
    seen[i].function = function;
    seen[i].numbers |= UINT32_C(1) << number;
}

void report(void)
{
    for (unsigned i = 0; i < FUNCTIONS && seen[i].function; i++) {
        printf("%s:", seen[i].function);
        for (unsigned number = 0; number < 32; number++)
            if (seen[i].numbers >> number & 1) printf(" %u", number);
        putchar('\n');
    }
}

static _Noreturn void violation(void)
{
    fflush(stderr);
    abort();
}

void expect(const char *what, uint64_t want, uint64_t got)
{
    if (want == got && counting && strcmp(what, "number") == 0) count(want);
    if (want == got) return;
    fprintf(stderr, "VIOLATION menkhodur_%s: %s: expected %" PRIu64 ", got %" PRIu64 "\n", function, what, want, got);
    violation();
}

void expect_answer(menkhodur_answer want, menkhodur_answer got)
{
    expect("number", want.number, got.number);
    expect("value", want.value, got.value);
}

static void expect_run(const char *what, const uint8_t *want, const uint8_t *got, size_t length, ptrdiff_t before)
{
    size_t i = 0;
    if (length == 0 || memcmp(want, got, length) == 0) return;
    while (want[i] == got[i]) i++;
    fprintf(stderr, "VIOLATION menkhodur_%s: %s, byte %td: expected %u, got %u\n", function, what, (ptrdiff_t)i - before, want[i], got[i]);
    violation();
}

void expect_bytes(const char *what, const void *want, const void *got, size_t length)
{
    expect_run(what, want, got, length, 0);
}

/* ---- Lent memory ---- */

static size_t pages(size_t length)
{
    return (length + PAGE - 1) / PAGE * PAGE;
}

/* Fills of the two turns. They differ from place to place, so that bytes moved by a few places show too. */
static uint8_t fills[2][PAGE];

static void make_fills(void)
{
    for (size_t i = 0; i < PAGE; i++) {
        fills[0][i] = (uint8_t)(0x5A + 7 * i);
        fills[1][i] = (uint8_t)~fills[0][i];
    }
}

/* From page to page. */
static void fill(struct lent *p, size_t from, size_t to, unsigned turn)
{
    for (size_t i = from; i < to; i += PAGE) {
        memcpy(p->kept + i, fills[turn], PAGE);
        memcpy(p->low + i, fills[turn], PAGE);
    }
}

static void protect(uint8_t *at, size_t length, int how)
{
    if (length == 0 || mprotect(at, length, how) == 0) return;
    perror("mprotect");
    exit(2);
}

void lent_make(struct lent *p, size_t most)
{
    size_t all = pages(most + 1);
    uint8_t *m = mmap(NULL, all + 2 * PAGE, PROT_NONE, MAP_PRIVATE | MAP_ANONYMOUS, -1, 0);
    p->kept = malloc(all);
    make_fills();
    if (m == MAP_FAILED || !p->kept) {
        fputs("no memory\n", stderr);
        exit(2);
    }
    p->low = m + PAGE;
    p->all = p->open = all;
    protect(p->low, all, PROT_READ | PROT_WRITE);
    lend(p, 0, true, 0);
}

void lend(struct lent *p, size_t length, bool front, unsigned turn)
{
    p->length = length;
    p->bytes = front ? p->low : p->low + p->all - length;
    fill(p, 0, p->open, turn);
}

void lent_put(struct lent *p, size_t at, const void *bytes, size_t length)
{
    if (length == 0) return;
    memcpy(p->bytes + at, bytes, length);
    memcpy(p->kept + (p->bytes - p->low) + at, bytes, length);
}

void lent_expect(struct lent *p, size_t at, const void *bytes, size_t length)
{
    if (length) memcpy(p->kept + (p->bytes - p->low) + at, bytes, length);
}

void lent_same(const char *what, const struct lent *p)
{
    expect_run(what, p->kept, p->low, p->open, p->bytes - p->low);
}

void lent_open(struct lent *p, size_t length)
{
    size_t open = pages((size_t)(p->bytes - p->low) + length), before = p->open;
    if (open > p->all) open = p->all;
    p->open = open;
    if (open > before) {
        protect(p->low + before, open - before, PROT_READ | PROT_WRITE);
        fill(p, before, open, 0);
    } else {
        protect(p->low + open, before - open, PROT_NONE);
    }
}

void lent_stir(struct lent *p, size_t at)
{
    size_t from = (size_t)(p->bytes - p->low) + at, to = p->open;
    uint8_t *kept = p->kept;
    if (from >= to) return;
    for (size_t i = from; i < to; i++) kept[i] ^= 0xFF;
    memcpy(p->low + from, kept + from, to - from);
}
