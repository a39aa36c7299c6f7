/* What differs between two rolls (document 02, orders 10 and 12): the text is made from the order's own words out of the two games that the rolls
 * were made of, and every lent byte is looked at. */
#include "game.h"

#include <stdio.h>
#include <string.h>

enum { MOST = 1500, PAIRS = 400, PAIRS_FEW = 20, LINE = 40, SPARE = 9 };

/* A start, and actions as a part has them. */
struct side {
    menkhodur_board start;
    uint64_t count;
    uint8_t actions[MENKHODUR_ACTION_SIZE * (MOST + 1)];
};

struct text {
    char bytes[MENKHODUR_MAX_DIFFERENCES + LINE];
    size_t length;
};

/* ---- The text, by the order's words ---- */

/* "An action's number is 0 if there is none, else its roll code + 16 × the move" */
static unsigned action_number(const struct side *s, uint64_t index)
{
    const uint8_t *a = s->actions + MENKHODUR_ACTION_SIZE * index;
    return index < s->count ? a[0] * 2u + a[1] + 16u * (a[2] + 256u * a[3]) : 0;
}

/* "its key, then the first and the second game's number, single spaces between" */
static void add_line(struct text *t, const char *key, unsigned first, unsigned second)
{
    t->length += (size_t)snprintf(t->bytes + t->length, LINE, "%s %u %u\n", key, first, second);
}

/* "the start squares, keyed by number, `side`, `white`, `black`, `ep`, then the first action that differs, keyed `action` and its index"; and the
 * counters, "`half` and `full` after `ep`" */
static struct text told(const struct side *first, const struct side *second)
{
    static const char *const behind[] = { "side", "white", "black", "ep", "half", "full" };
    struct text t = { { 0 }, 0 };
    char key[LINE];
    uint64_t index = 0;
    for (unsigned which = 0; which < ALL_NUMBERS; which++) {
        unsigned x = get_number(first->start, which), y = get_number(second->start, which);
        snprintf(key, sizeof key, "%u", which);
        if (x != y) add_line(&t, which < 64 ? key : behind[which - 64], x, y);
    }
    while (index < first->count && index < second->count && action_number(first, index) == action_number(second, index)) index++;
    if (index == first->count && index == second->count) return t;
    snprintf(key, sizeof key, "action %u", (unsigned)index);
    add_line(&t, key, action_number(first, index), action_number(second, index));
    return t;
}

/* ---- Calls ---- */

static void check_room(const struct part *first, const struct part *second, const struct text *t, size_t room)
{
    struct part out = lend(room);
    bool fits = t->length <= room;
    menkhodur_answer got = menkhodur_roll_differences(first->bytes, first->length, second->bytes, second->length, out.bytes, out.length);
    expect_answer(fits ? MENKHODUR_ACCEPTED : MENKHODUR_OUTPUT_TOO_SHORT, t->length, got);
    if (fits) expect_written("text", &out, 0, t->bytes, t->length);
    expect_unchanged("room", &out);
    expect_unchanged("first roll", first);
    expect_unchanged("second roll", second);
    give_back(&out);
}

/* Both ways round, in rooms that fit and that do not; none of at least MENKHODUR_MAX_DIFFERENCES is too short. */
static void check_pair(const struct side *first, const struct side *second)
{
    struct text t = told(first, second), back = told(second, first);
    struct part a = lend_roll(first->start, first->actions, first->count), b = lend_roll(second->start, second->actions, second->count);
    about("menkhodur_roll_differences", "%u and %u actions: %.*s", (unsigned)first->count, (unsigned)second->count, (int)t.length, t.bytes);
    expect("within the longest", 1, t.length <= MENKHODUR_MAX_DIFFERENCES);
    check_room(&a, &b, &t, t.length);
    check_room(&a, &b, &t, MENKHODUR_MAX_DIFFERENCES + SPARE);
    if (t.length) check_room(&a, &b, &t, t.length - 1);
    check_room(&a, &b, &t, 0);
    check_room(&b, &a, &back, MENKHODUR_MAX_DIFFERENCES);
    give_back(&a);
    give_back(&b);
}

/* ---- Games ---- */

static void add_action(struct side *s, uint64_t index, unsigned kind, unsigned colour, unsigned move)
{
    const uint8_t bytes[4] = { (uint8_t)kind, (uint8_t)colour, (uint8_t)(move % 256), (uint8_t)(move / 256) };
    memcpy(s->actions + MENKHODUR_ACTION_SIZE * index, bytes, sizeof bytes);
}

static void add_any(struct side *s, uint64_t index)
{
    unsigned kind = any(3) ? MENKHODUR_MAKE_MOVE : 1 + any(5);
    bool coloured = kind == MENKHODUR_OFFER_DRAW || kind == MENKHODUR_RESIGN;
    add_action(s, index, kind, coloured ? any(2) : 0, kind == MENKHODUR_MAKE_MOVE ? any(MENKHODUR_LAST_MOVE + 1) : 0);
}

static void any_side(struct side *s)
{
    s->count = any(any(4) ? 40 : 900);
    for (unsigned which = 0; which < ALL_NUMBERS; which++) set_number(&s->start, which, any_number(which));
    for (uint64_t i = 0; i < s->count; i++) add_any(s, i);
}

/* One thing of a copy: a number of the start, an action, the count. */
static void change(struct side *s)
{
    unsigned which = any(4) ? any(ALL_NUMBERS) : HALF_MOVES + any(2);
    switch (any(4)) {
    case 0: set_number(&s->start, which, any_number(which)); break;
    case 1: if (s->count) add_any(s, any((unsigned)s->count)); break;
    case 2: s->count = any((unsigned)s->count + 1); break;
    default: add_any(s, s->count++); break;
    }
}

static void check_games_that_differ(void)
{
    static struct side first, second;
    for (unsigned i = 0; i < (few ? PAIRS_FEW : PAIRS); i++) {
        any_side(&first);
        second = first;
        for (unsigned changes = any(4); changes; changes--) change(&second);
        if (i % 16 == 0) any_side(&second);
        check_pair(&first, &second);
    }
}

/* The order's own row, and each number of the start by itself. */
static void check_each_number(void)
{
    static struct side first, second;
    first = second = (struct side){ .start = empty_board };
    for (unsigned which = 0; which < ALL_NUMBERS; which++) {
        set_number(&first.start, which, limit_of(which));
        check_pair(&first, &second);
        set_number(&first.start, which, least_of(which));
    }
    first.start.pieces[28] = MENKHODUR_WHITE_PAWN;
    expect("the order's row", 0, (uint64_t)memcmp(told(&first, &second).bytes, "28 1 0\n", 8));
    check_pair(&first, &second);
}

/* Counters of every length in a roll and in a text, among lines before them and behind. */
static void check_counters_told(void)
{
    static const uint16_t counts[] = { 1, 2, 9, 10, 127, 128, 255, 256, 999, 1000, 9999 };
    static struct side first, second;
    first = second = (struct side){ .start = initial };
    first.start.en_passant = 8;
    add_action(&first, first.count++, MENKHODUR_OFFER_DRAW, MENKHODUR_BLACK, 0);
    for (unsigned i = 0; i < 11 * 11; i++) {
        first.start.half_moves = second.start.full_moves = counts[i / 11];
        second.start.half_moves = first.start.full_moves = counts[i % 11];
        check_pair(&first, &second);
    }
    first.start.half_moves = 0, second.start.half_moves = 100, first.start.full_moves = 9999, second.start.full_moves = 51;
    expect("by hand", 0, (uint64_t)memcmp(told(&first, &second).bytes, "ep 8 0\nhalf 0 100\nfull 9999 51\naction 0 5 0\n", 45));
    check_pair(&first, &second);
}

/* Men of two digits on every square, counters of four, and after a thousand offers the last move against the one before it. */
static void check_longest(void)
{
    static struct side first, second;
    struct text t;
    first = (struct side){ .count = 1001 };
    for (unsigned which = 0; which < 64; which++) first.start.pieces[which] = MENKHODUR_BLACK_ROOK;
    first.start.half_moves = first.start.full_moves = MENKHODUR_LAST_COUNT - 1;
    for (uint64_t i = 0; i < 1000; i++) add_action(&first, i, MENKHODUR_OFFER_DRAW, MENKHODUR_WHITE, 0);
    second = first;
    for (unsigned which = 0; which < ALL_NUMBERS; which++) set_number(&second.start, which, limit_of(which));
    add_action(&first, 1000, MENKHODUR_MAKE_MOVE, 0, MENKHODUR_LAST_MOVE);
    add_action(&second, 1000, MENKHODUR_MAKE_MOVE, 0, MENKHODUR_LAST_MOVE - 1);
    t = told(&first, &second);
    about("menkhodur_roll_differences", "the longest text");
    expect("length", MENKHODUR_MAX_DIFFERENCES, t.length);
    check_pair(&first, &second);
}

/* "those of the roll reader, first roll first": a good one, no roll, a number of the record over its bound, a clock and a move number out of range, a
 * count over the limit, and an old roll, which this call does not read. */
static void check_refusals_of_rolls(void)
{
    enum { ROLLS = 7, RECORD = KEY_NUMBERS };
    static const struct { uint64_t number; size_t length; uint8_t bytes[RECORD + 4]; } told[ROLLS] = {
        { MENKHODUR_ACCEPTED, RECORD + 3, { [FULL_MOVES] = 1 } },
        { MENKHODUR_BAD_ROLL, 0, { 0 } },
        { MENKHODUR_OUT_OF_RANGE, 1, { 13 } },
        { MENKHODUR_OUT_OF_RANGE, RECORD + 4, { [RECORD] = 128 + 10000 % 128, 10000 / 128, 1 } },
        { MENKHODUR_OUT_OF_RANGE, RECORD + 3, { 0 } },
        { MENKHODUR_LOG_FULL, RECORD + 4, { [FULL_MOVES] = 1, 128 + (MENKHODUR_MAX_ACTIONS + 1) % 128, (MENKHODUR_MAX_ACTIONS + 1) / 128 } },
        { MENKHODUR_BAD_ROLL, RECORD + 1, { 0 } },
    };
    struct part rolls[ROLLS], out = lend(SPARE);
    for (unsigned i = 0; i < ROLLS; i++) rolls[i] = lend_bytes(told[i].bytes, told[i].length);
    for (unsigned i = 0; i < ROLLS * ROLLS; i++) {
        const struct part *first = &rolls[i / ROLLS], *second = &rolls[i % ROLLS];
        uint64_t number = told[i / ROLLS].number ? told[i / ROLLS].number : told[i % ROLLS].number;
        about("menkhodur_roll_differences", "rolls %u and %u", i / ROLLS, i % ROLLS);
        expect_answer(number, 0, menkhodur_roll_differences(first->bytes, first->length, second->bytes, second->length, out.bytes, out.length));
        expect_unchanged("room", &out);
    }
    for (unsigned i = 0; i < ROLLS; i++) give_back(&rolls[i]);
    give_back(&out);
}

void check_differences(void)
{
    check_each_number();
    check_counters_told();
    check_games_that_differ();
    check_longest();
    check_refusals_of_rolls();
}
