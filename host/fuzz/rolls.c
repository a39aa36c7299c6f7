/* Rolls (document 02, orders 1, 10 and 12): what the functions answer by a second reading of the orders, and which of the lent bytes change. */
#include "fuzz.h"

#include <stdio.h>
#include <string.h>

/* A roll of actions of up to 5 bytes, in range or not. */
enum { SPARE = 64, MOST_ROLL = KEY_NUMBERS + 700 + 5 * MENKHODUR_MAX_ACTIONS };

/* An old roll, of before order 12, has no counters; its start has 0 and 1. */
enum kind { OLD, NEW };

static unsigned numbers_in(enum kind kind)
{
    return kind == OLD ? KEY_NUMBERS : ALL_NUMBERS;
}

/* The registers of these steps: actions, in range or not, and bytes that may be a roll. The start is the board's. */
struct game {
    uint8_t bytes[MENKHODUR_ACTIONS_LENGTH];
    uint64_t count;
};

struct roll {
    uint8_t bytes[MOST_ROLL + 2];
    size_t length;
};

static struct game game;
static struct roll roll;
static struct lent actions_part, roll_part;

/* A roll of before, and a room for what differs (order 10). */
static struct roll kept;
static struct lent kept_part, text_part;

void rolls_begin(void)
{
    if (!actions_part.low) lent_make(&actions_part, MENKHODUR_ACTIONS_LENGTH + SPARE);
    if (!roll_part.low) lent_make(&roll_part, MOST_ROLL + SPARE);
    if (!kept_part.low) lent_make(&kept_part, MOST_ROLL + SPARE);
    if (!text_part.low) lent_make(&text_part, MENKHODUR_MAX_DIFFERENCES + SPARE);
    game.count = roll.length = kept.length = 0;
}

/* ---- What the writer must answer ---- */

static bool is_action(const uint8_t *a)
{
    unsigned move = a[2] + 256u * a[3];
    switch (a[0]) {
    case MENKHODUR_MAKE_MOVE: return a[1] == 0 && move <= MENKHODUR_LAST_MOVE;
    case MENKHODUR_OFFER_DRAW:
    case MENKHODUR_RESIGN: return a[1] <= 1 && move == 0;
    case MENKHODUR_ACCEPT_DRAW:
    case MENKHODUR_DECLARE_DRAW: return a[1] == 0 && move == 0;
    default: return false;
    }
}

static uint64_t want_write(const menkhodur_board *b, const uint8_t *actions, size_t length, uint64_t count)
{
    uint64_t moves = 0, good = 0;
    if (length < MENKHODUR_ACTIONS_LENGTH) return MENKHODUR_PART_TOO_SHORT;
    if (!board_good(b)) return MENKHODUR_OUT_OF_RANGE;
    if (count > MENKHODUR_MAX_ACTIONS) return MENKHODUR_LOG_FULL;
    for (const uint8_t *a = actions; a < actions + MENKHODUR_ACTION_SIZE * count; a += MENKHODUR_ACTION_SIZE) {
        moves += a[0] == MENKHODUR_MAKE_MOVE;
        good += is_action(a);
    }
    if (moves > MENKHODUR_MAX_MOVES) return MENKHODUR_LOG_FULL;
    return good == count ? MENKHODUR_ACCEPTED : MENKHODUR_BAD_ROLL;
}

static void add_number(struct roll *r, uint64_t n)
{
    while (n >= 128) {
        r->bytes[r->length++] = (uint8_t)(n % 128 | 128);
        n /= 128;
    }
    r->bytes[r->length++] = (uint8_t)n;
}

/* The roll that says `count`, with the actions that are there, be they in range or not. */
static void encode(struct roll *r, enum kind kind, menkhodur_board b, const uint8_t *actions, uint64_t there, uint64_t count)
{
    r->length = 0;
    for (unsigned i = 0; i < numbers_in(kind); i++) add_number(r, get_number(b, i));
    add_number(r, count);
    for (const uint8_t *a = actions; a < actions + MENKHODUR_ACTION_SIZE * there; a += MENKHODUR_ACTION_SIZE) {
        add_number(r, 2u * a[0] + a[1]);
        if (a[0] == MENKHODUR_MAKE_MOVE) add_number(r, a[2] + 256u * a[3]);
    }
}

/* ---- What the reader must answer ---- */

enum { NO_NUMBER = -1 };

/* The number at `at`, which is moved behind it: cut short, not shortest and over five groups are none. */
static int64_t number_at(const struct roll *r, size_t *at)
{
    size_t first = *at, last = first;
    int64_t n = 0;
    while (last < r->length && last - first < 5 && r->bytes[last] >= 128) last++;
    if (last == r->length || last - first == 5) return NO_NUMBER;
    if (last > first && r->bytes[last] == 0) return NO_NUMBER;
    for (size_t i = last + 1; i > first; i--) n = n * 128 + r->bytes[i - 1] % 128;
    *at = last + 1;
    return n;
}

static uint64_t decode_action(const struct roll *r, size_t *at, struct game *g, unsigned *moves)
{
    int64_t code = number_at(r, at), move = 0;
    uint8_t *a = g->bytes + MENKHODUR_ACTION_SIZE * g->count;
    if (code < 0 || code > 255) return MENKHODUR_BAD_ROLL;
    if (code == 2 * MENKHODUR_MAKE_MOVE) {
        if (++*moves > MENKHODUR_MAX_MOVES) return MENKHODUR_LOG_FULL;
        move = number_at(r, at);
        if (move < 0 || move > MENKHODUR_LAST_MOVE) return MENKHODUR_BAD_ROLL;
    }
    a[0] = (uint8_t)(code / 2);
    a[1] = (uint8_t)(code % 2);
    a[2] = (uint8_t)(move % 256);
    a[3] = (uint8_t)(move / 256);
    g->count++;
    return is_action(a) ? MENKHODUR_ACCEPTED : MENKHODUR_BAD_ROLL;
}

static uint64_t decode_start(const struct roll *r, enum kind kind, size_t *at, menkhodur_board *b)
{
    *b = no_men;
    for (unsigned i = 0; i < numbers_in(kind); i++) {
        int64_t n = number_at(r, at);
        if (n < 0) return MENKHODUR_BAD_ROLL;
        if (n < least_of(i) || n > limit_of(i)) return MENKHODUR_OUT_OF_RANGE;
        set_number(b, i, (unsigned)n);
    }
    return MENKHODUR_ACCEPTED;
}

static uint64_t decode(const struct roll *r, enum kind kind, menkhodur_board *b, struct game *g)
{
    size_t at = 0;
    unsigned moves = 0;
    int64_t n;
    uint64_t number = decode_start(r, kind, &at, b);
    g->count = 0;
    if (number) return number;
    n = number_at(r, &at);
    if (n < 0) return MENKHODUR_BAD_ROLL;
    if (n > MENKHODUR_MAX_ACTIONS) return MENKHODUR_LOG_FULL;
    while (number == MENKHODUR_ACCEPTED && g->count < (uint64_t)n) number = decode_action(r, &at, g, &moves);
    return number == MENKHODUR_ACCEPTED && at < r->length ? MENKHODUR_BAD_ROLL : number;
}

/* ---- Calls ---- */

/* One call of the writer. Behind the register's actions the part is filled, with other bytes in each turn. */
static uint64_t judge_write(const struct input *in, unsigned turn, size_t length, uint64_t count, size_t room)
{
    static struct roll want;
    size_t used = MENKHODUR_ACTION_SIZE * game.count;
    menkhodur_answer answer, got;
    lend(&actions_part, length, in->front, turn);
    lent_put(&actions_part, 0, game.bytes, used < length ? used : length);
    lend(&roll_part, room, in->front, turn);
    answer = (menkhodur_answer){ want_write(&in->board, actions_part.bytes, length, count), 0 };
    if (answer.number == MENKHODUR_ACCEPTED) {
        encode(&want, NEW, in->board, actions_part.bytes, count, count);
        answer = (menkhodur_answer){ want.length > room ? MENKHODUR_OUTPUT_TOO_SHORT : MENKHODUR_ACCEPTED, want.length };
    }
    got = CALL(turn, menkhodur_roll_write, in->board, length ? actions_part.bytes : NULL, length, count, room ? roll_part.bytes : NULL, room);
    expect_answer(answer, got);
    if (answer.number == MENKHODUR_ACCEPTED) {
        lent_expect(&roll_part, 0, want.bytes, want.length);
        roll = want;
    }
    lent_same("room", &roll_part);
    lent_same("actions", &actions_part);
    return answer.number;
}

static menkhodur_roll read_by(enum kind kind, unsigned turn, size_t length)
{
    const uint8_t *bytes = roll.length ? roll_part.bytes : NULL;
    uint8_t *actions = length ? actions_part.bytes : NULL;
    if (kind == OLD) return CALL(turn, menkhodur_roll_read_old, bytes, roll.length, actions, length);
    return CALL(turn, menkhodur_roll_read, bytes, roll.length, actions, length);
}

/* One call of a reader on the register; what an accepted one hands out is in `b` and `g`. */
static uint64_t judge_read(const struct input *in, enum kind kind, unsigned turn, size_t length, menkhodur_board *b, struct game *g)
{
    static const menkhodur_board zeros;
    uint64_t number = length < MENKHODUR_ACTIONS_LENGTH ? MENKHODUR_PART_TOO_SHORT : decode(&roll, kind, b, g);
    bool accepted = number == MENKHODUR_ACCEPTED;
    menkhodur_roll got;
    lend(&actions_part, length, in->front, turn);
    lend(&roll_part, roll.length, in->front, turn);
    lent_put(&roll_part, 0, roll.bytes, roll.length);
    got = read_by(kind, turn, length);
    expect("number", number, got.number);
    expect("actions counted", accepted ? g->count : 0, got.actions);
    expect_bytes("board", accepted ? b : &zeros, &got.board, sizeof zeros);
    lent_expect(&actions_part, 0, g->bytes, accepted ? MENKHODUR_ACTION_SIZE * g->count : 0);
    lent_same("actions", &actions_part);
    lent_same("roll", &roll_part);
    return number;
}

/* ---- What differs ---- */

/* The number of action `index`, 0 if there is none. */
static unsigned differ_number(const struct game *g, uint64_t index)
{
    const uint8_t *a = g->bytes + MENKHODUR_ACTION_SIZE * index;
    return index < g->count ? 2u * a[0] + a[1] + 16 * (a[2] + 256u * a[3]) : 0;
}

/* The lines of two games, by the orders' words; gives their length. */
static size_t differ_text(menkhodur_board a, const struct game *g, menkhodur_board b, const struct game *h, char *text)
{
    static const char *const behind[ALL_NUMBERS - 64] = { "side", "white", "black", "ep", "half", "full" };
    char *at = text;
    for (unsigned i = 0; i < ALL_NUMBERS; i++) {
        unsigned x = get_number(a, i), y = get_number(b, i);
        if (x != y && i < 64) at += sprintf(at, "%u %u %u\n", i, x, y);
        if (x != y && i >= 64) at += sprintf(at, "%s %u %u\n", behind[i - 64], x, y);
    }
    for (uint64_t i = 0; i < g->count || i < h->count; i++) {
        unsigned x = differ_number(g, i), y = differ_number(h, i);
        if (x == y) continue;
        at += sprintf(at, "action %u %u %u\n", (unsigned)i, x, y);
        break;
    }
    return (size_t)(at - text);
}

/* One call on the register and the roll that is kept. */
static void judge_differences(const struct input *in, unsigned turn, size_t room)
{
    static struct game first, second;
    static char text[MENKHODUR_MAX_DIFFERENCES + SPARE];
    menkhodur_board a, b;
    menkhodur_answer want = { decode(&roll, NEW, &a, &first), 0 }, got;
    if (want.number == MENKHODUR_ACCEPTED) want.number = decode(&kept, NEW, &b, &second);
    if (want.number == MENKHODUR_ACCEPTED) {
        want.value = differ_text(a, &first, b, &second, text);
        if (want.value > room) want.number = MENKHODUR_OUTPUT_TOO_SHORT;
    }
    lend(&roll_part, roll.length, in->front, turn);
    lent_put(&roll_part, 0, roll.bytes, roll.length);
    lend(&kept_part, kept.length, in->front, turn);
    lent_put(&kept_part, 0, kept.bytes, kept.length);
    lend(&text_part, room, in->front, turn);
    got = CALL(turn, menkhodur_roll_differences, roll.length ? roll_part.bytes : NULL, roll.length, kept.length ? kept_part.bytes : NULL, kept.length,
               room ? text_part.bytes : NULL, room);
    expect_answer(want, got);
    if (want.number == MENKHODUR_ACCEPTED) lent_expect(&text_part, 0, text, want.value);
    lent_same("room", &text_part);
    lent_same("first roll", &roll_part);
    lent_same("second roll", &kept_part);
}

/* ---- Steps ---- */

/* The length of a part: full as a rule, longer or shorter now and then. */
static size_t take_part(struct input *in)
{
    unsigned form = take(in);
    if (form < 160) return MENKHODUR_ACTIONS_LENGTH + (form < 128 ? 0 : form - 127);
    return form < 192 ? MENKHODUR_ACTIONS_LENGTH - (form - 159) : 128 * (255 - form);
}

/* The register's own count, or any. */
static uint64_t take_count(struct input *in)
{
    return take(in) < 128 ? game.count : take_wide(in);
}

/* Room around the length of the register's roll, or a part of it. */
static size_t take_room(struct input *in)
{
    static struct roll own;
    unsigned form = take(in);
    encode(&own, NEW, in->board, game.bytes, game.count, game.count);
    if (form < 128) return own.length + form % SPARE;
    return form < 192 ? own.length - (form - 127) : (255 - form) * own.length / 64;
}

/* What was written must read back as it was. */
void call_roll_write(struct input *in)
{
    static struct game back;
    size_t length = take_part(in), room;
    uint64_t count = take_count(in);
    menkhodur_board b;
    room = take_room(in);
    for (unsigned turn = 0; turn < 2; turn++) {
        about("roll_write");
        if (judge_write(in, turn, length, count, room) != MENKHODUR_ACCEPTED) continue;
        about("roll_read of what roll_write wrote");
        expect("number", MENKHODUR_ACCEPTED, judge_read(in, NEW, turn, MENKHODUR_ACTIONS_LENGTH, &b, &back));
        expect("count", count, back.count);
        expect_bytes("start", &in->board, &b, sizeof b);
        if (count <= game.count) expect_bytes("actions read back", game.bytes, back.bytes, MENKHODUR_ACTION_SIZE * count);
    }
}

/* What was read is written into a room that just fits, and not into one byte less. */
static void expect_written(const struct input *in, unsigned turn, const struct roll *owed)
{
    expect("number", MENKHODUR_OUTPUT_TOO_SHORT, judge_write(in, turn, MENKHODUR_ACTIONS_LENGTH, game.count, owed->length - 1));
    expect("number", MENKHODUR_ACCEPTED, judge_write(in, turn, MENKHODUR_ACTIONS_LENGTH, game.count, owed->length));
    expect("length written back", owed->length, roll.length);
    expect_bytes("roll written back", owed->bytes, roll.bytes, owed->length);
}

/* What was read goes into the registers, and must be written back as it came. */
void call_roll_read(struct input *in)
{
    static struct game read;
    static struct roll came;
    size_t length = take_part(in);
    menkhodur_board b;
    for (unsigned turn = 0; turn < 2; turn++) {
        about("roll_read");
        if (judge_read(in, NEW, turn, length, &b, &read) != MENKHODUR_ACCEPTED) continue;
        came = roll;
        game = read;
        in->board = b;
        about("roll_write of what roll_read read");
        expect_written(in, turn, &came);
    }
}

static struct roll with_counters(const struct roll *old)
{
    struct roll r = { .length = old->length + 2 };
    memcpy(r.bytes, old->bytes, KEY_NUMBERS);
    r.bytes[KEY_NUMBERS] = 0;
    r.bytes[KEY_NUMBERS + 1] = 1;
    memcpy(r.bytes + KEY_NUMBERS + 2, old->bytes + KEY_NUMBERS, old->length - KEY_NUMBERS);
    return r;
}

/* The register is taken for an old roll. It is one exactly if the same bytes with 0 and 1 put in behind the 68th are a roll, of the same start and
 * actions; and these are what must be written. What was read goes into the registers. */
void call_roll_read_old(struct input *in)
{
    static struct game read, again;
    static struct roll old, owed;
    size_t length = take_part(in);
    menkhodur_board b, c;
    for (unsigned turn = 0; turn < 2; turn++) {
        uint64_t number;
        bool accepted;
        about("roll_read_old");
        number = judge_read(in, OLD, turn, length, &b, &read);
        if (number == MENKHODUR_PART_TOO_SHORT || roll.length < KEY_NUMBERS) continue;
        old = roll;
        roll = owed = with_counters(&old);
        about("roll_read of an old roll with 0 and 1");
        accepted = judge_read(in, NEW, turn, MENKHODUR_ACTIONS_LENGTH, &c, &again) == MENKHODUR_ACCEPTED;
        expect("accepted", number == MENKHODUR_ACCEPTED, accepted);
        if (accepted) {
            expect_bytes("start", &b, &c, sizeof b);
            expect("count", read.count, again.count);
            expect_bytes("actions read", read.bytes, again.bytes, MENKHODUR_ACTION_SIZE * read.count);
            game = read;
            in->board = b;
            about("roll_write of what roll_read_old read");
            expect_written(in, turn, &owed);
        }
        roll = old;
    }
}

/* Room for every text as a rule, less now and then. */
void call_roll_differences(struct input *in)
{
    unsigned form = take(in);
    size_t room = form < 128 ? MENKHODUR_MAX_DIFFERENCES + form % SPARE : form < 192 ? form - 128u : (form - 192u) * 10;
    about("roll_differences");
    for (unsigned turn = 0; turn < 2; turn++) judge_differences(in, turn, room);
}

void keep_roll(struct input *in)
{
    (void)in;
    kept = roll;
}

/* One action many times: in range as a rule, and any bytes if the kind's is 224 or more. */
void add_actions(struct input *in)
{
    unsigned form = take(in), colour = take(in), move = take_pair(in), times = take(in), kind = form % 5 + 1;
    bool any = form >= 224, moves = kind == MENKHODUR_MAKE_MOVE, coloured = kind == MENKHODUR_OFFER_DRAW || kind == MENKHODUR_RESIGN;
    if (any) kind = form % 8;
    else colour = coloured ? colour % 2 : 0, move = moves ? move % (MENKHODUR_LAST_MOVE + 1) : 0;
    for (times = times < 128 ? times + 1 : 1u << times % 14; times && game.count < MENKHODUR_MAX_ACTIONS; times--) {
        const uint8_t bytes[4] = { (uint8_t)kind, (uint8_t)colour, (uint8_t)(move % 256), (uint8_t)(move / 256) };
        memcpy(game.bytes + MENKHODUR_ACTION_SIZE * game.count++, bytes, sizeof bytes);
    }
}

/* The bytes that the registers give, also where no roll has them. */
void roll_of_game(struct input *in)
{
    uint64_t count = take_count(in);
    encode(&roll, NEW, in->board, game.bytes, game.count, count);
}

void old_roll_of_game(struct input *in)
{
    uint64_t count = take_count(in);
    encode(&roll, OLD, in->board, game.bytes, game.count, count);
}

void poke_roll(struct input *in)
{
    size_t at = take_pair(in);
    uint8_t byte = take(in);
    if (roll.length) roll.bytes[at % roll.length] = byte;
}

void insert_in_roll(struct input *in)
{
    size_t at = take_pair(in);
    uint8_t byte = take(in);
    if (roll.length >= MOST_ROLL) return;
    at %= roll.length + 1;
    memmove(roll.bytes + at + 1, roll.bytes + at, roll.length - at);
    roll.bytes[at] = byte;
    roll.length++;
}

void cut_roll(struct input *in)
{
    size_t length = take_pair(in);
    if (roll.length) roll.length = length % roll.length;
}
