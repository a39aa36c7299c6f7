/* Rolls (document 02, orders 1 and 12): the writer and both readers beside a writer and a reader made from the orders' own words, with every lent
 * byte looked at. */
#include "game.h"

#include <string.h>

enum { RECORD = KEY_NUMBERS, BEHIND = 64, GAMES = 150, GAMES_FEW = 5, CHANGES = 40 };

/* A roll has both counters behind the record's old numbers; an old one, from before order 12, has neither, and a reader of its own. */
struct kind {
    const char *reading;
    menkhodur_roll (*read)(const uint8_t *, size_t, uint8_t *, size_t);
    bool counted;
};

static const struct kind counted = { "menkhodur_roll_read", menkhodur_roll_read, true };
static const struct kind old = { "menkhodur_roll_read_old", menkhodur_roll_read_old, false };

/* There is room behind the longest one for what makes it too long. */
struct roll {
    const struct kind *kind;
    size_t length;
    uint8_t bytes[MENKHODUR_LONGEST_ROLL + BEHIND];
};

/* What a roll holds, with the actions as a part has them. */
struct finished {
    menkhodur_board start;
    uint64_t count;
    uint8_t actions[MENKHODUR_ACTIONS_LENGTH + BEHIND];
};

static const struct finished nothing;

/* ---- A writer, by the order's words ---- */

static void add_bytes(struct roll *r, const uint8_t *bytes, size_t length)
{
    memcpy(r->bytes + r->length, bytes, length);
    r->length += length;
}

/* "in groups of seven bits, lowest group first, top bit set on all but the last group, in the fewest groups" */
static void add_number(struct roll *r, uint64_t n)
{
    for (; n > 127; n /= 128) r->bytes[r->length++] = (uint8_t)(128 + n % 128);
    r->bytes[r->length++] = (uint8_t)n;
}

static struct roll no_bytes(const struct kind *kind)
{
    return (struct roll){ .kind = kind };
}

/* "the 68 record numbers of the start, the action count"; "A roll writes both after the old 68 numbers" */
static struct roll roll_front(const struct kind *kind, menkhodur_board start, uint64_t count)
{
    struct roll r = no_bytes(kind);
    for (unsigned which = 0; which < (kind->counted ? ALL_NUMBERS : RECORD); which++) add_number(&r, get_number(start, which));
    add_number(&r, count);
    return r;
}

/* "then for each action kind × 2 + colour and, for a move, the move number" */
static struct roll written(const struct kind *kind, const struct finished *f)
{
    struct roll r = roll_front(kind, f->start, f->count);
    for (const uint8_t *a = f->actions; a < f->actions + 4 * f->count; a += 4) {
        add_number(&r, a[0] * 2u + a[1]);
        if (a[0] == 1) add_number(&r, a[2] + 256u * a[3]);
    }
    return r;
}

static void add_action(struct finished *f, unsigned kind, unsigned colour, uint64_t move)
{
    const uint8_t bytes[4] = { (uint8_t)kind, (uint8_t)colour, (uint8_t)(move % 256), (uint8_t)(move / 256) };
    memcpy(f->actions + 4 * f->count++, bytes, sizeof bytes);
}

static struct part lend_kind(const struct kind *kind, menkhodur_board start, const uint8_t *actions, uint64_t count)
{
    struct finished f = { .start = start, .count = count };
    struct roll r;
    memcpy(f.actions, actions, 4 * count);
    r = written(kind, &f);
    return lend_bytes(r.bytes, r.length);
}

struct part lend_roll(menkhodur_board start, const uint8_t *actions, uint64_t count)
{
    return lend_kind(&counted, start, actions, count);
}

struct part lend_old_roll(menkhodur_board start, const uint8_t *actions, uint64_t count)
{
    return lend_kind(&old, start, actions, count);
}

/* ---- A reader, by the order's words ---- */

/* "a number not shortest or over five groups (before its size is judged)", and one that is cut short */
static bool next_number(const struct roll *r, size_t *at, uint64_t *n)
{
    unsigned groups = 0;
    uint8_t group = 255;
    for (*n = 0; group > 127; groups++) {
        if (*at == r->length || groups == 5) return false;
        group = r->bytes[(*at)++];
        *n += (uint64_t)(group % 128) << 7 * groups;
    }
    return groups == 1 || group > 0;
}

static bool is_code(uint64_t code)
{
    return code == 4 || code == 5 || code == 6 || code == 8 || code == 10 || code == 11;
}

/* "13 for a count or a move past the limit, and 17 for .. another number out of range" */
static uint64_t judge_actions(const struct roll *r, size_t at, uint64_t count, struct finished *f)
{
    uint64_t n, moves = 0;
    while (f->count < count) {
        if (!next_number(r, &at, &n)) return MENKHODUR_BAD_ROLL;
        if (n == 2) {
            if (++moves > MENKHODUR_MAX_MOVES) return MENKHODUR_LOG_FULL;
            if (!next_number(r, &at, &n) || n > 28671) return MENKHODUR_BAD_ROLL;
            add_action(f, 1, 0, n);
        } else {
            if (!is_code(n)) return MENKHODUR_BAD_ROLL;
            add_action(f, (unsigned)n / 2, (unsigned)n % 2, 0);
        }
    }
    return at == r->length ? MENKHODUR_ACCEPTED : MENKHODUR_BAD_ROLL;
}

/* "Old rolls .. get 0 and 1" */
static uint64_t judge(const struct roll *r, struct finished *f)
{
    size_t at = 0;
    uint64_t n;
    *f = nothing;
    f->start = empty_board;
    for (unsigned which = 0; which < (r->kind->counted ? ALL_NUMBERS : RECORD); which++) {
        if (!next_number(r, &at, &n)) return MENKHODUR_BAD_ROLL;
        if (n < least_of(which) || n > limit_of(which)) return MENKHODUR_OUT_OF_RANGE;
        set_number(&f->start, which, (unsigned)n);
    }
    if (!next_number(r, &at, &n)) return MENKHODUR_BAD_ROLL;
    return n > MENKHODUR_MAX_ACTIONS ? MENKHODUR_LOG_FULL : judge_actions(r, at, n, f);
}

/* ---- Calls ---- */

/* An accepted call writes the roll and nothing behind it, a refused one nothing. */
static void check_write(const struct finished *f, size_t part_length, size_t room, uint64_t number, const struct roll *want)
{
    struct part actions = lend_bytes(f->actions, part_length), out = lend(room);
    bool told = number == MENKHODUR_ACCEPTED || number == MENKHODUR_OUTPUT_TOO_SHORT;
    about("menkhodur_roll_write", "%llu actions in %zu bytes, room of %zu", (unsigned long long)f->count, part_length, room);
    expect_answer(number, told ? want->length : 0, menkhodur_roll_write(f->start, actions.bytes, part_length, f->count, out.bytes, room));
    expect_written("room", &out, 0, want->bytes, number == MENKHODUR_ACCEPTED ? want->length : 0);
    expect_unchanged("actions", &actions);
    give_back(&actions);
    give_back(&out);
}

/* An accepted call writes 4 bytes an action; a refused one nothing, and it hands out nothing. */
static void check_read(const struct roll *r, size_t part_length, uint64_t number, const struct finished *f)
{
    struct part roll = lend_bytes(r->bytes, r->length), actions = lend(part_length);
    const struct finished *want = number == MENKHODUR_ACCEPTED ? f : &nothing;
    menkhodur_roll got;
    about(r->kind->reading, "%zu bytes, part of %zu", r->length, part_length);
    got = r->kind->read(roll.bytes, roll.length, actions.bytes, actions.length);
    expect("number", number, got.number);
    expect("actions counted", want->count, got.actions);
    expect_board(&want->start, &got.board);
    expect_written("actions", &actions, 0, want->actions, 4 * want->count);
    expect_unchanged("roll", &roll);
    give_back(&roll);
    give_back(&actions);
}

/* An old roll with the counters 0 and 1 put in. */
static struct roll anew(const struct roll *r)
{
    struct roll n = no_bytes(&counted);
    add_bytes(&n, r->bytes, RECORD);
    add_bytes(&n, (uint8_t[]){ 0, 1 }, 2);
    add_bytes(&n, r->bytes + RECORD, r->length - RECORD);
    return n;
}

/* What is accepted is written back as it came. An old roll is accepted exactly if it is one with the counters put in, and then it says the same and
 * is written so. */
static void check_number(const struct roll *r, uint64_t number)
{
    struct finished f, again;
    struct roll back = *r;
    about(r->kind->reading, "%zu bytes", r->length);
    expect("number by the order's words", number, judge(r, &f));
    check_read(r, MENKHODUR_ACTIONS_LENGTH, number, &f);
    if (!r->kind->counted && r->length >= RECORD) {
        back = anew(r);
        expect("accepted with the counters put in", number == MENKHODUR_ACCEPTED, judge(&back, &again) == MENKHODUR_ACCEPTED);
        check_read(&back, MENKHODUR_ACTIONS_LENGTH, judge(&back, &again), &f);
    }
    if (number == MENKHODUR_ACCEPTED) check_write(&f, MENKHODUR_ACTIONS_LENGTH, back.length, number, &back);
}

static void check_roll(const struct roll *r)
{
    struct finished f;
    check_number(r, judge(r, &f));
}

/* The game's roll, which the writer writes and the reader reads; and if the counters are 0 and 1, its old roll. */
static void check_finished(const struct finished *f)
{
    struct roll r = written(&counted, f), before = written(&old, f);
    check_write(f, MENKHODUR_ACTIONS_LENGTH, r.length + BEHIND, MENKHODUR_ACCEPTED, &r);
    check_number(&r, MENKHODUR_ACCEPTED);
    if (f->start.half_moves == 0 && f->start.full_moves == 1) check_number(&before, MENKHODUR_ACCEPTED);
}

/* ---- One game, whose bytes were written out by hand ---- */

enum { E2E4 = 1804, HAND_ACTIONS = 9 };

static const uint8_t record_by_hand[RECORD] = {
    4, 2, 3, 5, 6, 3, 2, 4, 1, 1, 1, 1, 1, 1, 1, 1, 0, 0, 0, 0, 0, 0, 0, 0, 0, 0, 0, 0, 0, 0, 0, 0,
    0, 0, 0, 0, 0, 0, 0, 0, 0, 0, 0, 0, 0, 0, 0, 0, 7, 7, 7, 7, 7, 7, 7, 7, 10, 8, 9, 11, 12, 9, 8, 10,
    0, 3, 3, 0,
};

static const uint8_t counters_by_hand[] = {
    0xAC, 0x02,                            /* the clock 300, which is 44 + 128 * 2 */
    0x8F, 0x4E,                            /* the move number 9,999, which is 15 + 128 * 78 */
};

static const uint8_t rest_by_hand[] = {
    9,                                     /* actions */
    2, 0x8C, 0x0E,                         /* the move 1,804, which is 12 + 128 * 14 */
    4, 5,                                  /* offers by white and by black */
    2, 0xFF, 0xDF, 0x01,                   /* the move 28,671, which is 127 + 128 * 95 + 16,384 */
    6, 8, 10, 11,                          /* accepted, declared, both resign */
    2, 0,                                  /* the move 0 */
};

static const uint8_t actions_by_hand[4 * HAND_ACTIONS] = {
    1, 0, 12, 7, 2, 0, 0, 0, 2, 1, 0, 0, 1, 0, 255, 111, 3, 0, 0, 0, 4, 0, 0, 0, 5, 0, 0, 0, 5, 1, 0, 0, 1, 0, 0, 0,
};

static struct roll hand_roll(const struct kind *kind)
{
    struct roll r = no_bytes(kind);
    add_bytes(&r, record_by_hand, sizeof record_by_hand);
    if (kind->counted) add_bytes(&r, counters_by_hand, sizeof counters_by_hand);
    add_bytes(&r, rest_by_hand, sizeof rest_by_hand);
    return r;
}

static struct finished hand_game(const struct kind *kind)
{
    struct finished f = { .start = initial, .count = HAND_ACTIONS };
    if (kind->counted) f.start.half_moves = 300, f.start.full_moves = 9999;
    memcpy(f.actions, actions_by_hand, sizeof actions_by_hand);
    return f;
}

static void check_hand(const struct kind *kind)
{
    struct finished f = hand_game(kind);
    struct roll r = hand_roll(kind), back = kind->counted ? r : anew(&r);
    check_number(&r, MENKHODUR_ACCEPTED);
    for (size_t more = 0; more <= BEHIND; more += 4) {
        check_read(&r, MENKHODUR_ACTIONS_LENGTH + more, MENKHODUR_ACCEPTED, &f);
        check_write(&f, MENKHODUR_ACTIONS_LENGTH + more, back.length + more, MENKHODUR_ACCEPTED, &back);
    }
    for (size_t room = 0; room < back.length; room++) check_write(&f, MENKHODUR_ACTIONS_LENGTH, room, MENKHODUR_OUTPUT_TOO_SHORT, &back);
    for (size_t length = 0; length < MENKHODUR_ACTIONS_LENGTH; length += length < 40 ? 1 : 1019) {
        check_write(&f, length, back.length, MENKHODUR_PART_TOO_SHORT, &back);
        check_read(&r, length, MENKHODUR_PART_TOO_SHORT, &f);
    }
    check_read(&r, MENKHODUR_ACTIONS_LENGTH - 1, MENKHODUR_PART_TOO_SHORT, &f);
    check_write(&f, MENKHODUR_ACTIONS_LENGTH - 1, back.length, MENKHODUR_PART_TOO_SHORT, &back);
    f.count = 0;
    check_finished(&f);
}

/* Every cut, every byte behind, every other byte in each place, and every place without its byte. */
static void check_changes(const struct kind *kind)
{
    const struct roll whole = hand_roll(kind);
    struct roll r;
    for (size_t length = 0; length < whole.length; length++) {
        r = whole;
        r.length = length;
        check_number(&r, MENKHODUR_BAD_ROLL);
        r = whole;
        memmove(r.bytes + length, r.bytes + length + 1, --r.length - length);
        check_roll(&r);
    }
    for (unsigned byte = 0; byte < 256; byte++) {
        r = whole;
        add_bytes(&r, (uint8_t[]){ (uint8_t)byte }, 1);
        check_number(&r, MENKHODUR_BAD_ROLL);
    }
    for (unsigned i = 0; i < 256 * whole.length; i += few ? 7 : 1) {
        r = whole;
        r.bytes[i / 256] = (uint8_t)i;
        check_roll(&r);
    }
}

/* A roll that ends in a move, at every length: what it lacks stands behind it, and is not looked at. */
static void check_behind(const struct kind *kind, uint64_t move)
{
    struct roll r = roll_front(kind, initial, 1);
    struct part whole, actions = lend(MENKHODUR_ACTIONS_LENGTH);
    add_number(&r, 2);
    add_number(&r, move);
    check_number(&r, MENKHODUR_ACCEPTED);
    whole = lend_bytes(r.bytes, r.length);
    for (size_t length = 0; length < r.length; length++) {
        about(kind->reading, "%zu bytes of %zu, move %llu", length, r.length, (unsigned long long)move);
        expect("number", MENKHODUR_BAD_ROLL, kind->read(whole.bytes, length, actions.bytes, actions.length).number);
    }
    expect_unchanged("roll", &whole);
    expect_unchanged("actions", &actions);
    give_back(&whole);
    give_back(&actions);
}

/* ---- Numbers as they must not be, in every place ---- */

struct spelling {
    uint8_t bytes[6];
    size_t length;
    uint64_t in_record, as_count, in_action;
};

/* A number of five groups is judged by its size, which must not be cut; one of six, or with a last group of 0, is 17 whatever its size. */
static const struct spelling spellings[] = {
    { { 128, 0 }, 2, 17, 17, 17 },
    { { 255, 0 }, 2, 17, 17, 17 },
    { { 130, 128, 0 }, 3, 17, 17, 17 },
    { { 128, 128, 128, 128, 0 }, 5, 17, 17, 17 },
    { { 255, 255, 255, 255, 255, 127 }, 6, 17, 17, 17 },
    { { 130, 128, 128, 128, 128, 1 }, 6, 17, 17, 17 },
    { { 128, 128, 128, 128, 128, 0 }, 6, 17, 17, 17 },
    { { 255, 255, 255, 255, 127 }, 5, 5, 13, 17 },
    { { 130, 128, 128, 128, 16 }, 5, 5, 13, 17 },
    { { 128, 128, 128, 128, 8 }, 5, 5, 13, 17 },
    { { 130, 128, 128, 4 }, 4, 5, 13, 17 },
    { { 130, 128, 4 }, 3, 5, 13, 17 },
    { { 128, 224, 1 }, 3, 5, 13, 17 },
};

/* The roll by hand, with the number in one place spelled so. */
static struct roll respelled(const struct kind *kind, unsigned place, const uint8_t *bytes, size_t length)
{
    struct roll from = hand_roll(kind), r = no_bytes(kind);
    size_t at = 0;
    for (unsigned i = 0; at < from.length; i++) {
        size_t first = at;
        uint64_t n;
        next_number(&from, &at, &n);
        add_bytes(&r, i == place ? bytes : from.bytes + first, i == place ? length : at - first);
    }
    return r;
}

static void check_spellings(const struct kind *kind)
{
    const unsigned count = kind->counted ? ALL_NUMBERS : RECORD, numbers = count + 1 + HAND_ACTIONS + 3;
    for (unsigned place = 0; place < numbers; place++)
        for (size_t i = 0; i < sizeof spellings / sizeof *spellings; i++) {
            const struct spelling *s = &spellings[i];
            struct roll r = respelled(kind, place, s->bytes, s->length);
            check_number(&r, place < count ? s->in_record : place == count ? s->as_count : s->in_action);
        }
}

/* Each counter at both ends of its range and past them, and spelled longer than it need be, which is 17 before its size is judged. */
static void check_counters_in_rolls(void)
{
    static const struct { uint8_t bytes[6]; size_t length; uint64_t as_half, as_full; } rows[] = {
        { { 0 }, 1, 0, 5 }, { { 1 }, 1, 0, 0 }, { { 127 }, 1, 0, 0 }, { { 128, 1 }, 2, 0, 0 }, { { 0x8F, 0x4E }, 2, 0, 0 }, /* 9,999 */
        { { 0x90, 0x4E }, 2, 5, 5 }, { { 255, 127 }, 2, 5, 5 }, { { 128, 128, 1 }, 3, 5, 5 },                               /* 10,000 and more */
        { { 128, 128, 4 }, 3, 5, 5 }, { { 129, 128, 4 }, 3, 5, 5 }, { { 129, 128, 128, 128, 16 }, 5, 5, 5 },                /* 65,536, 65,537 */
        { { 128, 0 }, 2, 17, 17 }, { { 129, 0 }, 2, 17, 17 }, { { 0x8F, 0xCE, 0 }, 3, 17, 17 }, { { 0x90, 0xCE, 0 }, 3, 17, 17 },
        { { 129, 128, 128, 128, 128, 1 }, 6, 17, 17 },
    };
    for (size_t i = 0; i < sizeof rows / sizeof *rows; i++) {
        struct roll half = respelled(&counted, HALF_MOVES, rows[i].bytes, rows[i].length);
        struct roll full = respelled(&counted, FULL_MOVES, rows[i].bytes, rows[i].length);
        check_number(&half, rows[i].as_half);
        check_number(&full, rows[i].as_full);
    }
}

/* ---- Old rolls and new ones, each by the other's call ---- */

static void check_as(const struct roll *r, const struct kind *kind, uint64_t number)
{
    struct roll other = *r;
    other.kind = kind;
    check_number(&other, number);
}

/* Sixty-eight zeros, then these bytes. */
static void check_behind_zeros(const uint8_t *bytes, size_t length, uint64_t as_old, uint64_t as_counted)
{
    struct roll r = no_bytes(&old);
    r.length = RECORD;
    add_bytes(&r, bytes, length);
    check_as(&r, &old, as_old);
    check_as(&r, &counted, as_counted);
}

/* One string of bytes that is both, with two meanings: the move 0, or the counters 1 and 2 and no action. */
static void check_both_kinds(void)
{
    static const uint8_t bytes[RECORD + 3] = { [RECORD] = 1, 2, 0 };
    struct part roll = lend_bytes(bytes, sizeof bytes), actions = lend(MENKHODUR_ACTIONS_LENGTH);
    menkhodur_roll by_new = menkhodur_roll_read(roll.bytes, roll.length, actions.bytes, actions.length), by_old;
    menkhodur_board start = { .half_moves = 1, .full_moves = 2 };
    about(counted.reading, "the 71 bytes that are both");
    expect("number", MENKHODUR_ACCEPTED, by_new.number);
    expect("actions counted", 0, by_new.actions);
    expect_board(&start, &by_new.board);
    expect_unchanged("actions", &actions);
    about(old.reading, "the 71 bytes that are both");
    by_old = menkhodur_roll_read_old(roll.bytes, roll.length, actions.bytes, actions.length);
    expect("number", MENKHODUR_ACCEPTED, by_old.number);
    expect("actions counted", 1, by_old.actions);
    expect_board(&empty_board, &by_old.board);
    expect_written("actions", &actions, 0, (uint8_t[]){ MENKHODUR_MAKE_MOVE, 0, 0, 0 }, MENKHODUR_ACTION_SIZE);
    expect_unchanged("roll", &roll);
    give_back(&roll);
    give_back(&actions);
}

static void check_old_and_new(void)
{
    struct roll long_game = roll_front(&old, initial, 1026);
    check_both_kinds();
    check_behind_zeros((uint8_t[]){ 1, 2, 0 }, 3, MENKHODUR_ACCEPTED, MENKHODUR_ACCEPTED);
    check_behind_zeros((uint8_t[]){ 0 }, 1, MENKHODUR_ACCEPTED, MENKHODUR_BAD_ROLL);                 /* an old game without actions */
    check_behind_zeros((uint8_t[]){ 1, 4 }, 2, MENKHODUR_ACCEPTED, MENKHODUR_BAD_ROLL);              /* an old offer */
    check_behind_zeros((uint8_t[]){ 1, 2, 0x8C, 0x0E }, 4, MENKHODUR_ACCEPTED, MENKHODUR_BAD_ROLL);  /* an old move, 1,804 */
    check_behind_zeros((uint8_t[]){ 1, 2, 0x81, 0x40 }, 4, MENKHODUR_ACCEPTED, MENKHODUR_LOG_FULL);  /* 8,193, as a count too large */
    check_behind_zeros((uint8_t[]){ 0, 1, 0 }, 3, MENKHODUR_BAD_ROLL, MENKHODUR_ACCEPTED);           /* a new game without actions */
    check_behind_zeros((uint8_t[]){ 0x8F, 0x4E, 1, 0 }, 4, MENKHODUR_LOG_FULL, MENKHODUR_ACCEPTED);  /* a clock of 9,999 */
    check_behind_zeros((uint8_t[]){ 0x90, 0x4E, 1, 0 }, 4, MENKHODUR_LOG_FULL, MENKHODUR_OUT_OF_RANGE);
    check_behind_zeros((uint8_t[]){ 0, 0, 0 }, 3, MENKHODUR_BAD_ROLL, MENKHODUR_OUT_OF_RANGE);       /* a move number of 0 */
    /* 1,026 actions that begin with b1a3, the move 1,025: new, the counters 1,026 and 2, then 1,025 actions. */
    add_number(&long_game, 2);
    add_number(&long_game, MENKHODUR_MOVE(1, 16, 0));
    for (unsigned i = 0; i < 1025; i++) add_number(&long_game, 4);
    check_as(&long_game, &old, MENKHODUR_ACCEPTED);
    check_as(&long_game, &counted, MENKHODUR_ACCEPTED);
}

/* ---- The writer's numbers ---- */

static bool is_action(uint64_t kind, uint64_t colour, uint64_t move)
{
    if (kind == MENKHODUR_MAKE_MOVE) return colour == 0 && move <= MENKHODUR_LAST_MOVE;
    if (kind == MENKHODUR_OFFER_DRAW || kind == MENKHODUR_RESIGN) return colour < 2 && move == 0;
    return (kind == MENKHODUR_ACCEPT_DRAW || kind == MENKHODUR_DECLARE_DRAW) && colour == 0 && move == 0;
}

/* The action is the second of three; past the count it is not looked at. */
static void check_action(unsigned kind, unsigned colour, unsigned move)
{
    struct finished f = { .start = initial };
    struct roll r;
    add_action(&f, MENKHODUR_MAKE_MOVE, 0, E2E4);
    add_action(&f, kind, colour, move);
    f.count = 1;
    check_finished(&f);
    f.count = 2;
    add_action(&f, MENKHODUR_RESIGN, 1, 0);
    r = written(&counted, &f);
    check_write(&f, MENKHODUR_ACTIONS_LENGTH, r.length, is_action(kind, colour, move) ? MENKHODUR_ACCEPTED : MENKHODUR_BAD_ROLL, &r);
}

static void check_actions(void)
{
    static const unsigned kinds[10] = { 0, 1, 2, 3, 4, 5, 6, 7, 128, 255 }, colours[4] = { 0, 1, 2, 255 };
    static const unsigned moves[7] = { 0, 1, 256, E2E4, MENKHODUR_LAST_MOVE, MENKHODUR_LAST_MOVE + 1, 65535 };
    for (unsigned i = 0; i < 10 * 4 * 7; i++) check_action(kinds[i / 28], colours[i / 7 % 4], moves[i % 7]);
}

static void check_records_and_counts(void)
{
    const struct finished whole = hand_game(&counted);
    struct finished f = whole;
    struct roll r = hand_roll(&counted);
    for (unsigned i = 0; i < BAD_BOARDS; i++) {
        f.start = bad_board(whole.start, i);
        check_write(&f, MENKHODUR_ACTIONS_LENGTH, r.length, MENKHODUR_OUT_OF_RANGE, &r);
    }
    f.start = whole.start;
    for (unsigned i = 0; i < 3 * WIDE; i++) {
        f.count = i < WIDE ? wide[i] : i < 2 * WIDE ? wide_over(i - WIDE, HAND_ACTIONS) : MENKHODUR_MAX_ACTIONS + 1 + i - 2 * WIDE;
        check_write(&f, MENKHODUR_ACTIONS_LENGTH, r.length, MENKHODUR_LOG_FULL, &r);
    }
}

/* Counters of one byte and of two in a roll without actions, which has 71 to 73 bytes. */
static void check_written_counters(void)
{
    static const uint16_t counts[] = { 1, 127, 128, 129, 255, 256, 9998, 9999 };
    enum { COUNTS = sizeof counts / sizeof *counts };
    struct finished f = { .start = empty_board };
    about("menkhodur_roll_write", "the shortest roll");
    expect("length", 71, written(&counted, &f).length);
    check_finished(&f);
    for (unsigned i = 0; i < COUNTS * COUNTS; i++) {
        f.start.half_moves = counts[i / COUNTS];
        f.start.full_moves = counts[i % COUNTS];
        check_finished(&f);
    }
}

/* ---- Orders of checks, over every set of faults ---- */

static void check_write_order(unsigned faults)
{
    static const uint64_t numbers[] = { MENKHODUR_PART_TOO_SHORT, MENKHODUR_OUT_OF_RANGE, MENKHODUR_LOG_FULL, MENKHODUR_LOG_FULL,
                                        MENKHODUR_BAD_ROLL, MENKHODUR_OUTPUT_TOO_SHORT };
    struct finished f = { .start = initial };
    struct roll r;
    if (faults & 2) f.start = bad_board(initial, BAD_BOARDS - 1 - faults % 7);
    add_action(&f, MENKHODUR_OFFER_DRAW, faults & 16 ? 2 : 1, 0);
    for (unsigned i = 0; i < (faults & 8 ? MENKHODUR_MAX_MOVES + 1 : 3); i++) add_action(&f, MENKHODUR_MAKE_MOVE, 0, E2E4);
    r = written(&counted, &f);
    if (faults & 4) f.count = MENKHODUR_MAX_ACTIONS + 1;
    check_write(&f, MENKHODUR_ACTIONS_LENGTH - (faults & 1), r.length - (faults >> 5 & 1), first_of(faults, numbers), &r);
}

/* The faults stand in the roll in this order; two are of the counters. */
enum { READ_FAULTS = 512, COUNTER_FAULTS = 8 | 16 };

static void add_start_with(struct roll *r, unsigned faults)
{
    for (unsigned which = 0; which < RECORD; which++) {
        if (which == 40 && faults & 4) add_bytes(r, (uint8_t[]){ 128, 0 }, 2);
        else add_number(r, which == 20 && faults & 2 ? 13 : record_by_hand[which]);
    }
    if (!r->kind->counted) return;
    add_number(r, faults & 8 ? MENKHODUR_LAST_COUNT + 1 : MENKHODUR_LAST_COUNT);
    if (faults & 16) add_bytes(r, (uint8_t[]){ 128, 0 }, 2);
    else add_number(r, MENKHODUR_LAST_COUNT);
}

static void check_read_order(const struct kind *kind, unsigned faults)
{
    static const uint64_t numbers[] = { MENKHODUR_PART_TOO_SHORT, MENKHODUR_OUT_OF_RANGE, MENKHODUR_BAD_ROLL, MENKHODUR_OUT_OF_RANGE,
                                        MENKHODUR_BAD_ROLL, MENKHODUR_LOG_FULL, MENKHODUR_BAD_ROLL, MENKHODUR_LOG_FULL, MENKHODUR_BAD_ROLL };
    struct roll r = no_bytes(kind);
    unsigned moves = faults & 128 ? MENKHODUR_MAX_MOVES + 1 : 3;
    struct finished f;
    if (!kind->counted && faults & COUNTER_FAULTS) return;
    add_start_with(&r, faults);
    add_number(&r, faults & 32 ? MENKHODUR_MAX_ACTIONS + 1 : moves + 2);
    add_number(&r, faults & 64 ? 3 : 4);
    for (unsigned i = 0; i < moves; i++) add_bytes(&r, (uint8_t[]){ 2, 0x8C, 0x0E }, 3);
    add_number(&r, 6);
    if (faults & 256) r.length--;
    about(kind->reading, "faults %u", faults);
    expect("number by the order's words", first_of(faults >> 1, numbers + 1), judge(&r, &f));
    check_read(&r, MENKHODUR_ACTIONS_LENGTH - (faults & 1), first_of(faults, numbers), &f);
}

/* ---- Limits ---- */

/* The 4,097th move is refused at its code, whatever the others are: what stands for its number is not read. */
static void check_last_move(const struct kind *kind, const uint8_t *tail, size_t length, uint64_t number)
{
    static const uint64_t moves[] = { 0, 127, 128, E2E4, 16383, 16384, MENKHODUR_LAST_MOVE };
    for (size_t k = 0; k < sizeof moves / sizeof *moves; k++) {
        struct roll r = roll_front(kind, initial, MENKHODUR_MAX_MOVES + 1);
        for (unsigned i = 0; i < MENKHODUR_MAX_MOVES; i++) {
            add_number(&r, 2);
            add_number(&r, moves[k]);
        }
        add_bytes(&r, tail, length);
        check_number(&r, number);
    }
}

static void check_limits(const struct kind *kind)
{
    struct roll none = roll_front(kind, initial, MENKHODUR_MAX_ACTIONS), over = roll_front(kind, initial, MENKHODUR_MAX_ACTIONS + 1);
    check_number(&none, MENKHODUR_BAD_ROLL);
    check_number(&over, MENKHODUR_LOG_FULL);
    check_last_move(kind, (uint8_t[]){ 0 }, 0, MENKHODUR_BAD_ROLL);
    check_last_move(kind, (uint8_t[]){ 4 }, 1, MENKHODUR_ACCEPTED);
    check_last_move(kind, (uint8_t[]){ 3 }, 1, MENKHODUR_BAD_ROLL);
    check_last_move(kind, (uint8_t[]){ 2 }, 1, MENKHODUR_LOG_FULL);
    check_last_move(kind, (uint8_t[]){ 2, 0 }, 2, MENKHODUR_LOG_FULL);
    check_last_move(kind, (uint8_t[]){ 2, 128, 1 }, 3, MENKHODUR_LOG_FULL);
    check_last_move(kind, (uint8_t[]){ 2, 128, 128, 1 }, 4, MENKHODUR_LOG_FULL);
    check_last_move(kind, (uint8_t[]){ 2, 128, 0 }, 3, MENKHODUR_LOG_FULL);
    check_last_move(kind, (uint8_t[]){ 130, 0 }, 2, MENKHODUR_BAD_ROLL);
}

/* 13 stands before 17: actions of kind 1 are counted as moves, those too whose colour or number makes them none, wherever they stand. */
static void check_moves_counted(unsigned moves, unsigned bad, uint64_t number)
{
    struct finished f = { .start = initial };
    struct roll r = hand_roll(&counted);
    for (unsigned i = 0; i < bad; i++) add_action(&f, MENKHODUR_MAKE_MOVE, i % 2, i % 2 ? 0 : MENKHODUR_LAST_MOVE + 1);
    for (unsigned i = 0; i < moves; i++) add_action(&f, MENKHODUR_MAKE_MOVE, 0, MENKHODUR_LAST_MOVE);
    add_action(&f, 0, MENKHODUR_MAKE_MOVE, MENKHODUR_MAKE_MOVE);
    check_write(&f, MENKHODUR_ACTIONS_LENGTH, MENKHODUR_LONGEST_ROLL, number, &r);
}

static void check_longest(const struct kind *kind)
{
    struct finished f = { .start = initial };
    struct roll r;
    if (kind->counted) f.start.half_moves = f.start.full_moves = MENKHODUR_LAST_COUNT;
    while (f.count < MENKHODUR_MAX_ACTIONS) {
        add_action(&f, MENKHODUR_MAKE_MOVE, 0, MENKHODUR_LAST_MOVE);
        add_action(&f, MENKHODUR_OFFER_DRAW, MENKHODUR_BLACK, 0);
    }
    check_finished(&f);
    r = written(kind, &f);
    expect("longest", kind->counted ? MENKHODUR_LONGEST_ROLL : MENKHODUR_LONGEST_ROLL - 4, r.length);
    if (kind->counted) check_write(&f, MENKHODUR_ACTIONS_LENGTH, r.length - 1, MENKHODUR_OUTPUT_TOO_SHORT, &r);
    while (r.length > 0) {
        r.length -= few && r.length > 97 ? 97 : kind->counted || r.length < 97 ? 1 : 11;
        check_number(&r, MENKHODUR_BAD_ROLL);
    }
}

/* ---- Rolls of logs that calls have made ---- */

static void check_log_roll(const struct game *g)
{
    struct finished f = { .start = initial, .count = g->action_count };
    memcpy(f.actions, g->actions.bytes, MENKHODUR_ACTIONS_LENGTH);
    check_finished(&f);
}

static void check_logs(void)
{
    static const struct request last[] = { { OFFER_DRAW, 0, 1, NULL }, { ACCEPT_DRAW, 0, 0, NULL } };
    struct game g = lend_game(MENKHODUR_ACTIONS_LENGTH, MENKHODUR_POSITIONS_LENGTH);
    struct position p = round_position(0, false);
    start(&g, &p, MENKHODUR_ACCEPTED);
    check_log_roll(&g);
    play_round(&g, 3, false);
    check_log_roll(&g);
    for (unsigned i = 0; i < 2; i++) {
        play(&g, last[i], MENKHODUR_ACCEPTED);
        check_log_roll(&g);
    }
    g.action_count = g.move_count = 0;
    start(&g, &p, MENKHODUR_ACCEPTED);
    play(&g, (struct request){ OFFER_DRAW, 0, 0, NULL }, MENKHODUR_ACCEPTED);
    play_round(&g, 150, false);
    play(&g, (struct request){ DECLARE_DRAW, 0, 0, NULL }, MENKHODUR_ACCEPTED);
    check_log_roll(&g);
    give_back_game(&g);
}

/* ---- Random games, and changes of their rolls ---- */

static struct finished some_game(void)
{
    struct finished f = nothing;
    unsigned actions = any(4) ? any(30) : any(MENKHODUR_MAX_ACTIONS + 1);
    for (unsigned which = 0; which < ALL_NUMBERS; which++) set_number(&f.start, which, any_number(which));
    if (any(4) == 0) f.start.half_moves = 0, f.start.full_moves = 1;
    for (unsigned i = 0; i < actions; i++) {
        unsigned kind = i < MENKHODUR_MAX_MOVES && any(3) ? MENKHODUR_MAKE_MOVE : 2 + any(4);
        bool coloured = kind == MENKHODUR_OFFER_DRAW || kind == MENKHODUR_RESIGN;
        add_action(&f, kind, coloured ? any(2) : 0, kind == MENKHODUR_MAKE_MOVE ? any(any(2) ? 200 : MENKHODUR_LAST_MOVE + 1) : 0);
    }
    return f;
}

/* Each is read by either call. */
static void check_some(void)
{
    struct finished f = some_game();
    const struct roll new_roll = written(&counted, &f), old_roll = written(&old, &f);
    struct roll r;
    check_finished(&f);
    for (unsigned i = 0; i < CHANGES; i++) {
        r = any(2) ? new_roll : old_roll;
        if (i > 1) r.bytes[any((unsigned)r.length)] = (uint8_t)any(256);
        if (i > 1 && any(2)) r.bytes[RECORD + any((unsigned)r.length - RECORD)] = (uint8_t)any(256);
        check_roll(&r);
        r.kind = r.kind->counted ? &old : &counted;
        check_roll(&r);
    }
}

static void check_kind(const struct kind *kind)
{
    check_hand(kind);
    check_changes(kind);
    check_behind(kind, 0);
    check_behind(kind, E2E4);
    check_behind(kind, MENKHODUR_LAST_MOVE);
    check_spellings(kind);
    for (unsigned faults = 0; faults < READ_FAULTS; faults++) check_read_order(kind, faults);
    check_limits(kind);
    check_longest(kind);
}

void check_rolls(void)
{
    check_kind(&counted);
    check_kind(&old);
    check_counters_in_rolls();
    check_old_and_new();
    check_actions();
    check_records_and_counts();
    check_written_counters();
    for (unsigned faults = 0; faults < 64; faults++) check_write_order(faults);
    for (unsigned bad = 0; bad < 10; bad++) {
        check_moves_counted(MENKHODUR_MAX_MOVES - bad, bad, MENKHODUR_BAD_ROLL);
        check_moves_counted(MENKHODUR_MAX_MOVES - bad + 1, bad, MENKHODUR_LOG_FULL);
    }
    check_logs();
    for (unsigned i = 0; i < (few ? GAMES_FEW : GAMES); i++) check_some();
}
