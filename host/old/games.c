/* The log: random games with good calls and bad ones, and logs that are spoilt; rolls, and what differs between two of them. */
#include "questions.h"

enum { GAMES = 400, TRIES = 60, OVER = 3, LISTED = 3, ROLL = 24000, SPOILT = 4000 };

static uint8_t actions[ACTIONS_PART], positions[POSITIONS_PART];
static uint64_t n, m;

#define PARTS actions, sizeof actions, positions, sizeof positions, n, m

/* ---- Games in which positions recur, and now and then a pawn moves, a man is taken, a right is lost, or no move is left ---- */

enum { E1 = 4, B3 = 17, C3 = 18, D4 = 27, E4 = 28, E5 = 36, B6 = 41, C6 = 42, A8 = 56, H8 = 63 };

struct position {
    menkhodur_board board;
    uint8_t in_check;
    uint16_t list[256];
    size_t entries;
};

static uint16_t there_and_back(const menkhodur_board *b, unsigned here, unsigned there)
{
    return b->pieces[here] ? MENKHODUR_MOVE(here, there, 0) : MENKHODUR_MOVE(there, here, 0);
}

static struct position some_position(menkhodur_board b)
{
    static const uint16_t rare[] = { MENKHODUR_MOVE(B3, B3, 0), MENKHODUR_MOVE(E1, E5, 0), MENKHODUR_MOVE(H8, A8, 0), MENKHODUR_MOVE(B6, C3, 0) };
    struct position p = { b, 0, { there_and_back(&b, B3, C3), there_and_back(&b, B6, C6) }, any(30) ? LISTED : 0 };
    p.in_check = (uint8_t)any(2);
    p.list[2] = any(8) ? there_and_back(&b, D4, E4) : rare[any(4)];
    return p;
}

static struct position some_start(void)
{
    uint8_t numbers[RECORD] = { 0 };
    numbers[B3] = (uint8_t)(2 + any(4)), numbers[B6] = (uint8_t)(8 + any(4)), numbers[D4] = any(2) ? MENKHODUR_WHITE_PAWN : MENKHODUR_BLACK_PAWN;
    numbers[64] = (uint8_t)any(2);
    numbers[65] = any(25) ? 3 : 1;
    numbers[66] = any(25) ? 3 : 2;
    numbers[67] = (uint8_t)any(9);
    return some_position(board_of(numbers));
}

/* One thing of a position that a call is to refuse; most often nothing. */
static void spoil(struct position *p)
{
    switch (any(40)) {
    case 0: p->board.pieces[any(64)] = 13; break;
    case 1: p->in_check = 2; break;
    case 2: p->list[0] = MENKHODUR_LAST_MOVE + 1; break;
    case 3: p->entries = 256; break;
    case 4: p->board.side_to_move ^= 1; break;
    case 5: set_any(p->board.pieces, 64, 13); break;
    case 6: p->board.en_passant = (uint8_t)any(9); break;
    case 7: p->board.white_castle_rights = (uint8_t)any(4); break;
    default: break;
    }
}

static menkhodur_counts move_on(struct position *now)
{
    uint64_t move = any(20) ? now->list[any(10) ? any(2) : 2] : any(70000);
    struct position next = some_position(menkhodur_board_after(now->board, move % (MENKHODUR_LAST_MOVE + 1)).board);
    menkhodur_counts c;
    spoil(&next);
    c = menkhodur_game_make_move(PARTS, move, next.board, next.in_check, next.list, next.entries);
    if (c.number == 0) *now = next;
    return c;
}

static menkhodur_counts some_call(struct position *now)
{
    unsigned kind = any(40);
    uint8_t colour = (uint8_t)(any(15) ? any(2) : any(256));
    if (kind < 30) return move_on(now);
    if (kind < 36) return menkhodur_game_offer_draw(PARTS, colour);
    if (kind < 38) return menkhodur_game_accept_draw(PARTS);
    return kind < 39 ? menkhodur_game_declare_draw(PARTS) : menkhodur_game_resign(PARTS, colour);
}

/* What the queries say; the number of the first. */
static uint64_t add_queries(void)
{
    menkhodur_answer result = menkhodur_game_result(PARTS);
    menkhodur_ruling r = menkhodur_game_ruling(PARTS);
    const uint64_t all[] = { r.number, r.count, r.laws_count, r.equals, r.first, r.second, r.claim, r.laws_claim };
    add_answer(result);
    add_answer(menkhodur_game_can_declare_draw(PARTS));
    add_answer(menkhodur_game_can_claim_by_laws(PARTS));
    for (unsigned i = 0; i < 8; i++) add(all[i]);
    return result.number;
}

/* Until some calls have found it over. */
static void ask_game(unsigned game)
{
    struct position now = some_start();
    unsigned over = 0;
    menkhodur_counts c;
    memset(actions, FILL, sizeof actions);
    memset(positions, FILL, sizeof positions);
    c = menkhodur_game_start(actions, sizeof actions, positions, sizeof positions, now.board, now.in_check, now.list, now.entries);
    for (unsigned i = 0; i < TRIES && over < OVER; i++) {
        n = c.actions;
        m = c.moves;
        add_queries();
        c = some_call(&now);
        add(c.actions);
        add(c.moves);
        over += c.number == MENKHODUR_GAME_OVER;
        answered(c.number, "game %u, call %u", game, i);
    }
    n = c.actions;
    m = c.moves;
    add_bytes(actions, sizeof actions);
    add_bytes(as_before(positions, m + 1), OLD_POSITION * (m + 1));
    answered(add_queries(), "game %u, its parts", game);
}

/* The last of those games with a byte changed: of its actions, or of a position's in-check byte and list; or with a number of a record out of range. */
static void ask_spoilt(unsigned i)
{
    size_t k = any((unsigned)m + 1), behind = any(any(2) ? 8 : OLD_POSITION - RECORD);
    bool action = any(3) == 0, number = any(4) == 0;
    uint8_t *record = positions + POSITION * k;
    uint8_t *byte = action ? actions + any(4 * (unsigned)n + 4) : number ? record + any(RECORD) : record + RECORD + COUNTERS + behind;
    uint8_t kept = *byte;
    *byte = (uint8_t)(!action && number ? 13 + any(243) : any(256));
    answered(add_queries(), "spoilt %u", i);
    *byte = kept;
}

void ask_logs(void)
{
    begin("log");
    for (unsigned i = 0; i < GAMES; i++) ask_game(i);
    begin("spoilt");
    for (unsigned i = 0; i < SPOILT; i++) {
        if (i % 100 == 0) ask_game(GAMES + i);
        ask_spoilt(i);
    }
}

/* ---- Rolls ---- */

static size_t put_number(uint8_t *at, unsigned number)
{
    size_t length = 0;
    for (; number >= 128; number /= 128) at[length++] = (uint8_t)(128 + number % 128);
    at[length++] = (uint8_t)number;
    return length;
}

/* An old roll: a record, a count, and so many actions. */
static size_t any_roll(uint8_t *roll)
{
    static const uint8_t codes[] = { 2, 2, 2, 4, 5, 6, 8, 10, 11 };
    menkhodur_board b = any_board();
    unsigned count = any(4) ? any(30) : any(3000);
    size_t length = RECORD;
    memcpy(roll, &b, RECORD);
    length += put_number(roll + length, count);
    for (unsigned i = 0; i < count; i++) {
        uint8_t code = codes[any(sizeof codes)];
        length += put_number(roll + length, code);
        if (code == 2) length += put_number(roll + length, any(any(2) ? 200 : MENKHODUR_LAST_MOVE + 1));
    }
    return length;
}

/* Changed in up to two bytes from a place on. */
static size_t damaged(uint8_t *roll, size_t length, size_t from)
{
    for (unsigned i = any(3); i; i--) set_any(roll + from, length - from, 256);
    return any(8) ? length : from + any((unsigned)(length - from) + 1);
}

/* Read, and what was read written again. */
static void ask_roll(const uint8_t *roll, size_t length)
{
    static uint8_t room[ROLL];
    menkhodur_roll r;
    memset(actions, FILL, sizeof actions);
    memset(room, FILL, sizeof room);
    r = read_old_roll(roll, length, actions, any(50) ? sizeof actions : sizeof actions - 1);
    add(r.actions);
    add_board(r.board);
    add_bytes(actions, sizeof actions);
    if (r.number == 0) add_answer(write_old_roll(r.board, actions, sizeof actions, r.actions, room, any(8) ? sizeof room : length - 1));
    add_bytes(room, sizeof room);
    answered(r.number, "%zu bytes", length);
}

/* Two copies of a game, or two games; damaged behind the record alone, since an old roll and that with its counters put in are refused there alike. */
static void ask_pair(void)
{
    static uint8_t first[ROLL], second[ROLL], rolls[2][ROLL + 2];
    uint8_t room[1024];
    size_t length = any_roll(first), other = length;
    menkhodur_answer a;
    memcpy(second, first, length);
    if (any(4) == 0) other = any_roll(second);
    set_any(second, 64, 13);
    if (any(2)) other = damaged(second, other, RECORD);
    if (any(8) == 0) length = damaged(first, length, RECORD);
    memset(room, FILL, sizeof room);
    length = roll_of(first, length, rolls[0]);
    other = roll_of(second, other, rolls[1]);
    a = menkhodur_roll_differences(rolls[0], length, rolls[1], other, room, any(4) ? sizeof room : any(40));
    add(a.value);
    add_bytes(room, sizeof room);
    answered(a.number, "rolls of %zu and %zu bytes", length - COUNTERS / 2, other - COUNTERS / 2);
}

void ask_rolls(void)
{
    static uint8_t roll[ROLL];
    begin("roll");
    for (unsigned i = 0; i < 3000; i++) {
        size_t length = any_roll(roll);
        ask_roll(roll, any(2) ? length : damaged(roll, length, 0));
    }
    begin("differences");
    for (unsigned i = 0; i < 3000; i++) ask_pair();
}
