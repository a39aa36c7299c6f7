#include "rules.h"

#include <string.h>

/* Where the parts of a position begin. */
enum {
    SIDE = 64,
    WHITE_RIGHTS = 65,
    BLACK_RIGHTS = 66,
    CLOCK = MENKHODUR_POSITION_HALF_MOVES,
    MOVE_NUMBER = MENKHODUR_POSITION_FULL_MOVES,
    IN_CHECK = MENKHODUR_POSITION_IN_CHECK,
    ENTRIES = MENKHODUR_POSITION_ENTRIES,
    LIST = MENKHODUR_POSITION_MOVES
};

static const uint8_t *position_at(const struct log *l, uint64_t i)
{
    return l->positions + MENKHODUR_POSITION_SIZE * i;
}

static const uint8_t *action_at(const struct log *l, uint64_t i)
{
    return l->actions + MENKHODUR_ACTION_SIZE * i;
}

const uint8_t *current_position(const struct log *l)
{
    return position_at(l, l->move_count);
}

/* Two bytes, low first. */
static unsigned pair_at(const uint8_t *bytes)
{
    return bytes[0] + 256u * bytes[1];
}

static void put_pair(uint8_t *bytes, unsigned number)
{
    bytes[0] = (uint8_t)(number % 256);
    bytes[1] = (uint8_t)(number / 256);
}

menkhodur_board board_in(const uint8_t *position)
{
    menkhodur_board b;
    for (unsigned i = 0; i < KEY_NUMBERS; i++) *number_of(&b, i) = position[i];
    b.half_moves = (uint16_t)pair_at(position + CLOCK);
    b.full_moves = (uint16_t)pair_at(position + MOVE_NUMBER);
    return b;
}

size_t list_in(const uint8_t *position, uint16_t *list)
{
    for (unsigned i = 0; i < position[ENTRIES]; i++) list[i] = (uint16_t)pair_at(position + LIST + 2 * i);
    return position[ENTRIES];
}

bool is_listed(const uint8_t *position, uint64_t move)
{
    for (unsigned i = 0; i < position[ENTRIES]; i++)
        if (pair_at(position + LIST + 2 * i) == move) return true;
    return false;
}

/* ---- Endings, offers and claims ---- */

bool log_over(const struct log *l)
{
    unsigned last = l->action_count ? action_at(l, l->action_count - 1)[0] : 0;
    return current_position(l)[ENTRIES] == 0 || last == 1 + ACCEPT_DRAW || last == 1 + DECLARE_DRAW || last == 1 + RESIGN;
}

uint64_t log_result(const struct log *l)
{
    const uint8_t *p = current_position(l), *last = l->action_count ? action_at(l, l->action_count - 1) : NULL;
    if (!log_over(l)) return MENKHODUR_GOES_ON;
    if (last && last[0] == 1 + ACCEPT_DRAW) return MENKHODUR_DRAW_ACCEPTED;
    if (last && last[0] == 1 + DECLARE_DRAW) return MENKHODUR_DRAW_DECLARED;
    if (last && last[0] == 1 + RESIGN) return last[1] ? MENKHODUR_BLACK_RESIGNS : MENKHODUR_WHITE_RESIGNS;
    if (!p[IN_CHECK]) return MENKHODUR_STALEMATE;
    return p[SIDE] ? MENKHODUR_WHITE_CHECKMATES : MENKHODUR_BLACK_CHECKMATES;
}

bool log_offered(const struct log *l)
{
    uint64_t n = l->action_count;
    if (n >= 1 && action_at(l, n - 1)[0] == 1 + OFFER_DRAW) return true;
    return n >= 2 && action_at(l, n - 2)[0] == 1 + OFFER_DRAW && action_at(l, n - 2)[1] != current_position(l)[SIDE];
}

/* The same record but for the counters, and the same list in order. The in-check byte is not looked at. */
static bool equal(const uint8_t *p, const uint8_t *q)
{
    return memcmp(p, q, KEY_NUMBERS) == 0 && memcmp(p + ENTRIES, q + ENTRIES, MENKHODUR_POSITION_SIZE - ENTRIES) == 0;
}

static bool takes_or_pawn(const uint8_t *before, unsigned move)
{
    unsigned man = before[move % 64];
    return man == 1 || man == 7 || before[move / 64 % 64];
}

static bool rights_differ(const uint8_t *before, const uint8_t *after)
{
    return before[WHITE_RIGHTS] != after[WHITE_RIGHTS] || before[BLACK_RIGHTS] != after[BLACK_RIGHTS];
}

bool log_claimable(const struct log *l)
{
    uint64_t at = 0, since = 0, equals = 0;
    if (log_over(l)) return false;
    for (uint64_t i = 0; i < l->action_count; i++) {
        const uint8_t *action = action_at(l, i);
        if (action[0] != 1 + MAKE_MOVE) continue;
        if (takes_or_pawn(position_at(l, at), pair_at(action + 2)) || rights_differ(position_at(l, at), position_at(l, at + 1))) since = at + 1;
        at++;
    }
    for (uint64_t i = since; i < at; i++) equals += equal(position_at(l, i), current_position(l));
    return at - since >= 100 || equals >= 2;
}

/* ---- The ruling: back from the last move, as far as each count goes ---- */

static void count_back(const struct log *l, menkhodur_ruling *r)
{
    uint64_t at = l->move_count;
    bool running = true;
    for (uint64_t i = l->action_count; i-- > 0;) {
        const uint8_t *action = action_at(l, i);
        if (action[0] != 1 + MAKE_MOVE) continue;
        if (takes_or_pawn(position_at(l, at - 1), pair_at(action + 2))) return;
        running = running && !rights_differ(position_at(l, at - 1), position_at(l, at));
        r->laws_count++;
        r->count += running;
        at--;
    }
}

static uint64_t reason_of(uint64_t count, uint64_t equals)
{
    return (count >= 100 ? 1u : 0u) + (equals >= 2 ? 2u : 0u);
}

menkhodur_ruling log_ruling(const struct log *l)
{
    menkhodur_ruling r = { 0 };
    count_back(l, &r);
    for (uint64_t at = l->move_count; at-- > l->move_count - r.count;) {
        if (!equal(position_at(l, at), current_position(l))) continue;
        if (r.equals++) r.second = r.first;
        r.first = at;
    }
    if (log_over(l)) return r;
    r.claim = reason_of(r.count, r.equals);
    r.laws_claim = reason_of(r.laws_count, r.equals);
    return r;
}

/* ---- Good logs ---- */

static bool position_good(const uint8_t *p)
{
    menkhodur_board b = board_in(p);
    if (!board_good(&b) || p[IN_CHECK] > 1) return false;
    for (unsigned i = 0; i < MENKHODUR_LONGEST_LIST; i++) {
        unsigned move = pair_at(p + LIST + 2 * i);
        if (move > (i < p[ENTRIES] ? MENKHODUR_LAST_MOVE : 0)) return false;
    }
    return true;
}

static bool move_good(struct log *l, const uint8_t *action, uint64_t moves)
{
    const uint8_t *p = current_position(l), *next = p + MENKHODUR_POSITION_SIZE;
    menkhodur_board after, came;
    if (l->move_count == moves || !is_listed(p, pair_at(action + 2)) || !position_good(next) || p[SIDE] == next[SIDE]) return false;
    after = after_of(board_in(p), pair_at(action + 2));
    came = board_in(next);
    l->move_count++;
    return memcmp(&after, &came, sizeof after) == 0;
}

/* Whether the next action could have been accepted; it is then in the log. */
static bool action_good(struct log *l, uint64_t moves)
{
    const uint8_t *a = action_at(l, l->action_count);
    bool bare = a[2] == 0 && a[3] == 0, good = false;
    if (log_over(l)) return false;
    switch (a[0]) {
    case 1 + MAKE_MOVE: good = a[1] == 0 && move_good(l, a, moves); break;
    case 1 + OFFER_DRAW:
    case 1 + RESIGN: good = bare && a[1] <= 1; break;
    case 1 + ACCEPT_DRAW: good = bare && a[1] == 0 && log_offered(l); break;
    case 1 + DECLARE_DRAW: good = bare && a[1] == 0 && log_claimable(l); break;
    default: break;
    }
    l->action_count++;
    return good;
}

bool log_good(const struct log *whole)
{
    struct log l = { whole->actions, whole->positions, 0, 0 };
    if (whole->action_count > MENKHODUR_MAX_ACTIONS || whole->move_count > MENKHODUR_MAX_MOVES) return false;
    if (!position_good(l.positions)) return false;
    while (l.action_count < whole->action_count)
        if (!action_good(&l, whole->move_count)) return false;
    return l.move_count == whole->move_count;
}

/* ---- Bytes ---- */

void position_bytes(const menkhodur_board *b, uint8_t in_check, const uint16_t *list, size_t entries, uint8_t *bytes)
{
    menkhodur_board copy = *b;
    memset(bytes, 0, MENKHODUR_POSITION_SIZE);
    for (unsigned i = 0; i < KEY_NUMBERS; i++) bytes[i] = *number_of(&copy, i);
    put_pair(bytes + CLOCK, b->half_moves);
    put_pair(bytes + MOVE_NUMBER, b->full_moves);
    bytes[IN_CHECK] = in_check;
    bytes[ENTRIES] = (uint8_t)entries;
    for (size_t i = 0; i < entries; i++) put_pair(bytes + LIST + 2 * i, list[i]);
}

void action_bytes(enum call call, uint64_t move, uint8_t colour, uint8_t *bytes)
{
    bool moves = call == MAKE_MOVE, coloured = call == OFFER_DRAW || call == RESIGN;
    bytes[0] = (uint8_t)(1 + call);
    bytes[1] = coloured ? colour : 0;
    put_pair(bytes + 2, moves ? (unsigned)move : 0);
}
