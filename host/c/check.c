#include "check.h"

#include <inttypes.h>
#include <stdarg.h>
#include <stdio.h>
#include <stdlib.h>
#include <string.h>

enum { ROWS = 64, TOLD = 20, GUARD = 64, ENDS = 16384, FILL = 0xA5 };

bool exact = false, few = false;

static struct { const char *function; unsigned long checks; uint32_t numbers; } rows[ROWS];
static unsigned row;
static char input[160];
static unsigned long failed;

const uint64_t wide[WIDE] = {
    65536, 70000, UINT64_C(1) << 32, (UINT64_C(1) << 32) + 1, UINT64_C(1) << 62, UINT64_C(1) << 63, (UINT64_C(1) << 63) + 1, UINT64_MAX,
};

uint64_t wide_over(unsigned i, uint64_t low)
{
    return (wide[i] & ~UINT64_C(65535)) + low;
}

bool is_in(const char *bytes, uint8_t byte)
{
    return byte && strchr(bytes, byte);
}

unsigned any(unsigned below)
{
    static uint64_t seed = UINT64_C(88172645463325252);
    seed ^= seed << 13;
    seed ^= seed >> 7;
    seed ^= seed << 17;
    return (unsigned)(seed >> 33) % below;
}

unsigned any_number(unsigned which)
{
    unsigned values = limit_of(which) - least_of(which) + 1, near = any(4);
    if (which < KEY_NUMBERS || any(2)) return least_of(which) + any(values);
    return any(2) ? limit_of(which) - near : least_of(which) + near;
}

uint64_t first_of(unsigned faults, const uint64_t *numbers)
{
    unsigned i = 0;
    if (!faults) return MENKHODUR_ACCEPTED;
    while (!(faults >> i & 1)) i++;
    return numbers[i];
}

void about(const char *function, const char *format, ...)
{
    va_list list;
    va_start(list, format);
    vsnprintf(input, sizeof input, format, list);
    va_end(list);
    for (row = 0; row < ROWS - 1 && rows[row].function && strcmp(rows[row].function, function); row++) {}
    rows[row].function = function;
}

static bool judge(bool passed)
{
    rows[row].checks++;
    failed += !passed;
    if (few && failed > TOLD) exit(1);
    return passed || failed > TOLD;
}

void expect(const char *what, uint64_t want, uint64_t got)
{
    if (want == got && want < 32 && strcmp(what, "number") == 0) rows[row].numbers |= UINT32_C(1) << want;
    if (judge(want == got)) return;
    printf("FAILED %s, %s: %s: expected %" PRIu64 ", got %" PRIu64 "\n", rows[row].function, input, what, want, got);
}

void expect_answer(uint64_t number, uint64_t value, menkhodur_answer got)
{
    expect("number", number, got.number);
    expect("value", value, got.value);
}

void expect_placed(menkhodur_placed want, menkhodur_placed got)
{
    expect("number", want.number, got.number);
    expect("value", want.value, got.value);
    expect("offset", want.offset, got.offset);
}

void expect_ruling(menkhodur_ruling want, menkhodur_ruling got)
{
    expect("number", want.number, got.number);
    expect("count", want.count, got.count);
    expect("count of the Laws", want.laws_count, got.laws_count);
    expect("equals", want.equals, got.equals);
    expect("first", want.first, got.first);
    expect("second", want.second, got.second);
    expect("claim", want.claim, got.claim);
    expect("claim by the Laws", want.laws_claim, got.laws_claim);
}

static void expect_bytes(const char *what, const uint8_t *want, const uint8_t *got, size_t length, size_t before)
{
    size_t i = 0;
    if (judge(memcmp(want, got, length) == 0)) return;
    while (want[i] == got[i]) i++;
    printf("FAILED %s, %s: %s, byte %td: expected %u, got %u\n", rows[row].function, input, what, (ptrdiff_t)i - (ptrdiff_t)before,
           want[i], got[i]);
}

void expect_board(const menkhodur_board *want, const menkhodur_board *got)
{
    expect_bytes("board", (const uint8_t *)want, (const uint8_t *)got, sizeof *want, 0);
}

static void print_numbers(uint32_t numbers)
{
    if (numbers) printf(", answers");
    for (unsigned i = 0; i < 32; i++)
        if (numbers >> i & 1) printf(" %u", i);
}

static void report_row(const struct answers *a)
{
    about(a->function, "numbers answered");
    printf("%-32s %8lu checks", a->function, rows[row].checks);
    print_numbers(rows[row].numbers);
    putchar('\n');
    expect("set", a->numbers, rows[row].numbers);
}

bool report(const struct answers *answers, unsigned functions)
{
    unsigned long checks = 0;
    for (unsigned i = 0; i < functions; i++) report_row(&answers[i]);
    for (unsigned i = 0; i < ROWS; i++) checks += rows[i].checks;
    printf("%lu checks, %lu failed\n", checks, failed);
    return failed == 0;
}

static size_t guard(void)
{
    return exact ? 0 : GUARD;
}

static void *room(size_t length)
{
    void *p = malloc(length);
    if (!p && length) {
        puts("FAILED: no memory");
        exit(2);
    }
    return p;
}

struct part lend(size_t length)
{
    size_t all = length + 2 * guard();
    struct part p = { room(all), room(all), NULL, length };
    p.bytes = p.block + guard();
    memset(p.block, FILL, all);
    memset(p.want, FILL, all);
    return p;
}

struct part lend_bytes(const void *bytes, size_t length)
{
    struct part p = lend(length);
    put(&p, 0, bytes, length);
    return p;
}

struct part lend_text(const char *text)
{
    return lend_bytes(text, strlen(text));
}

void give_back(struct part *p)
{
    free(p->block);
    free(p->want);
}

void put(struct part *p, size_t at, const void *bytes, size_t length)
{
    if (length == 0) return;
    memcpy(p->bytes + at, bytes, length);
    memcpy(p->want + guard() + at, bytes, length);
}

void put_byte(struct part *p, size_t at, uint8_t byte)
{
    put(p, at, &byte, 1);
}

void expect_unchanged(const char *what, const struct part *p)
{
    static unsigned turn;
    size_t all = p->length + 2 * guard(), end = all - ENDS;
    if (few && all > 2 * ENDS && turn++ % 16) {
        expect_bytes(what, p->want, p->block, ENDS, guard());
        expect_bytes(what, p->want + end, p->block + end, ENDS, guard());
    } else expect_bytes(what, p->want, p->block, all, guard());
}

void expect_written(const char *what, struct part *p, size_t at, const void *bytes, size_t length)
{
    memcpy(p->want + guard() + at, bytes, length);
    expect_unchanged(what, p);
}

/* ---- Boards ---- */

const menkhodur_board no_board = { { 0 }, 0, 0, 0, 0, 0, 0 };
const menkhodur_board empty_board = { .full_moves = 1 };

const menkhodur_board initial = {
    {
        4, 2, 3, 5, 6, 3, 2, 4,
        1, 1, 1, 1, 1, 1, 1, 1,
        0, 0, 0, 0, 0, 0, 0, 0,
        0, 0, 0, 0, 0, 0, 0, 0,
        0, 0, 0, 0, 0, 0, 0, 0,
        0, 0, 0, 0, 0, 0, 0, 0,
        7, 7, 7, 7, 7, 7, 7, 7,
        10, 8, 9, 11, 12, 9, 8, 10,
    },
    0, 3, 3, 0, 0, 1,
};

menkhodur_board board_with(uint8_t side, unsigned men, const uint8_t *squares, const uint8_t *codes)
{
    menkhodur_board b = empty_board;
    b.side_to_move = side;
    for (unsigned i = 0; i < men; i++) b.pieces[squares[i]] = codes[i];
    return b;
}

bool same_board(menkhodur_board b, menkhodur_board c)
{
    for (unsigned which = 0; which < ALL_NUMBERS; which++)
        if (get_number(b, which) != get_number(c, which)) return false;
    return true;
}

bool board_in_range(menkhodur_board b)
{
    for (unsigned which = 0; which < ALL_NUMBERS; which++)
        if (get_number(b, which) < least_of(which) || get_number(b, which) > limit_of(which)) return false;
    return true;
}

menkhodur_board bad_board(menkhodur_board b, unsigned i)
{
    if (i == BAD_BOARDS - 1) b.full_moves = 0;
    else set_number(&b, i / 2, i % 2 ? largest_of(i / 2) : limit_of(i / 2) + 1);
    return b;
}
