#include "game.h"

#include <string.h>

const char *const name_of_call[CALLS] = {
    "menkhodur_game_make_move", "menkhodur_game_offer_draw", "menkhodur_game_accept_draw", "menkhodur_game_declare_draw",
    "menkhodur_game_resign", "menkhodur_game_result", "menkhodur_game_can_declare_draw", "menkhodur_game_can_claim_by_laws",
    "menkhodur_game_ruling",
};

struct game lend_game(size_t actions_length, size_t positions_length)
{
    return (struct game){ lend(actions_length), lend(positions_length), 0, 0 };
}

void give_back_game(struct game *g)
{
    give_back(&g->actions);
    give_back(&g->positions);
}

/* ---- The knights' round ---- */

enum { G1 = 6, F3 = 21, F6 = 45, G8 = 62 };

uint64_t round_move(uint64_t k)
{
    static const uint64_t moves[4] = { G1 + 64 * F3, G8 + 64 * F6, F3 + 64 * G1, F6 + 64 * G8 };
    return moves[k % 4];
}

static void step_to(menkhodur_board *b, uint64_t move)
{
    b->pieces[move / 64] = b->pieces[move % 64];
    b->pieces[move % 64] = 0;
    b->side_to_move ^= 1;
}

struct position round_position(uint64_t k, bool fresh)
{
    struct position p = { initial, 0, { 0 }, 2 };
    for (uint64_t i = 0; i < k % 4; i++) step_to(&p.board, round_move(i));
    p.board.half_moves = (uint16_t)k;
    p.board.full_moves = (uint16_t)(1 + k / 2);
    p.list[0] = fresh ? (uint16_t)(8192 + k) : 1804;
    p.list[1] = (uint16_t)round_move(k);
    return p;
}

/* ---- Bytes ---- */

/* "two bytes, low first" */
static void pair_bytes(uint16_t number, uint8_t *bytes)
{
    bytes[0] = (uint8_t)(number % 256);
    bytes[1] = (uint8_t)(number / 256);
}

static void position_bytes(const struct position *p, uint8_t *bytes)
{
    memset(bytes, 0, MENKHODUR_POSITION_SIZE);
    for (unsigned which = 0; which < KEY_NUMBERS; which++) bytes[MENKHODUR_POSITION_RECORD + which] = (uint8_t)get_number(p->board, which);
    pair_bytes(p->board.half_moves, bytes + MENKHODUR_POSITION_HALF_MOVES);
    pair_bytes(p->board.full_moves, bytes + MENKHODUR_POSITION_FULL_MOVES);
    bytes[MENKHODUR_POSITION_IN_CHECK] = p->in_check;
    bytes[MENKHODUR_POSITION_ENTRIES] = (uint8_t)p->entries;
    for (size_t i = 0; i < p->entries; i++) pair_bytes(p->list[i], bytes + MENKHODUR_POSITION_MOVES + 2 * i);
}

static void action_bytes(struct request r, uint8_t *bytes)
{
    bool moves = r.call == MAKE_MOVE, coloured = r.call == OFFER_DRAW || r.call == RESIGN;
    bytes[0] = (uint8_t)(1 + r.call);
    bytes[1] = coloured ? r.colour : 0;
    bytes[2] = moves ? (uint8_t)(r.move % 256) : 0;
    bytes[3] = moves ? (uint8_t)(r.move / 256) : 0;
}

void put_position(struct game *g, uint64_t k, const struct position *p)
{
    uint8_t bytes[MENKHODUR_POSITION_SIZE];
    position_bytes(p, bytes);
    put(&g->positions, MENKHODUR_POSITION_SIZE * k, bytes, sizeof bytes);
}

void put_start(struct game *g, const struct position *p)
{
    put_position(g, 0, p);
    g->action_count = g->move_count = 0;
}

void append(struct game *g, struct request r)
{
    uint8_t action[MENKHODUR_ACTION_SIZE];
    action_bytes(r, action);
    put(&g->actions, MENKHODUR_ACTION_SIZE * g->action_count++, action, sizeof action);
    if (r.call == MAKE_MOVE) put_position(g, ++g->move_count, r.next);
}

void append_round(struct game *g, uint64_t moves, bool fresh)
{
    for (uint64_t i = 0; i < moves; i++) {
        struct position next = round_position(g->move_count + 1, fresh);
        append(g, (struct request){ MAKE_MOVE, round_move(g->move_count), 0, &next });
    }
}

void append_offers(struct game *g, uint64_t offers, uint8_t colour)
{
    for (uint64_t i = 0; i < offers; i++) append(g, (struct request){ OFFER_DRAW, 0, colour, NULL });
}

/* ---- Calls ---- */

static struct part lend_list(const struct position *p)
{
    return lend_bytes(p->list, 2 * p->entries);
}

bool empty_list_is_null = false;

static const uint16_t *moves_in(const struct part *list)
{
    return empty_list_is_null && list->length == 0 ? NULL : (const uint16_t *)(const void *)list->bytes;
}

static menkhodur_counts call_move(struct game *g, struct request r)
{
    struct part list = lend_list(r.next);
    menkhodur_counts c = menkhodur_game_make_move(g->actions.bytes, g->actions.length, g->positions.bytes, g->positions.length, g->action_count,
                                                  g->move_count, r.move, r.next->board, r.next->in_check, moves_in(&list), r.next->entries);
    expect_unchanged("list", &list);
    give_back(&list);
    return c;
}

static menkhodur_counts call(struct game *g, struct request r)
{
    uint8_t *a = g->actions.bytes, *p = g->positions.bytes;
    size_t al = g->actions.length, pl = g->positions.length;
    switch (r.call) {
    case MAKE_MOVE: return call_move(g, r);
    case OFFER_DRAW: return menkhodur_game_offer_draw(a, al, p, pl, g->action_count, g->move_count, r.colour);
    case RESIGN: return menkhodur_game_resign(a, al, p, pl, g->action_count, g->move_count, r.colour);
    case ACCEPT_DRAW: return menkhodur_game_accept_draw(a, al, p, pl, g->action_count, g->move_count);
    default: return menkhodur_game_declare_draw(a, al, p, pl, g->action_count, g->move_count);
    }
}

static void expect_parts(const struct game *g)
{
    expect_unchanged("actions", &g->actions);
    expect_unchanged("positions", &g->positions);
}

/* A new action writes its 4 bytes, a new position its 584, and nothing else. */
static void expect_appended(struct game *g, struct request r)
{
    uint8_t action[MENKHODUR_ACTION_SIZE], position[MENKHODUR_POSITION_SIZE];
    action_bytes(r, action);
    expect_written("actions", &g->actions, MENKHODUR_ACTION_SIZE * g->action_count++, action, sizeof action);
    if (r.call == MAKE_MOVE) position_bytes(r.next, position), g->move_count++;
    expect_written("positions", &g->positions, MENKHODUR_POSITION_SIZE * g->move_count, position, r.call == MAKE_MOVE ? sizeof position : 0);
}

void play(struct game *g, struct request r, uint64_t number)
{
    bool accepted = number == MENKHODUR_ACCEPTED;
    menkhodur_counts c;
    about(name_of_call[r.call], "%llu actions, %llu moves, move %llu, colour %u", (unsigned long long)g->action_count,
          (unsigned long long)g->move_count, (unsigned long long)r.move, r.colour);
    c = call(g, r);
    expect("number", number, c.number);
    expect("actions counted", g->action_count + accepted, c.actions);
    expect("moves counted", g->move_count + (accepted && r.call == MAKE_MOVE), c.moves);
    if (accepted) expect_appended(g, r);
    else expect_parts(g);
}

static void about_query(const struct game *g, enum call query)
{
    about(name_of_call[query], "%llu actions, %llu moves", (unsigned long long)g->action_count, (unsigned long long)g->move_count);
}

void ask_ruling(struct game *g, menkhodur_ruling want)
{
    about_query(g, RULING);
    expect_ruling(want, menkhodur_game_ruling(g->actions.bytes, g->actions.length, g->positions.bytes, g->positions.length, g->action_count,
                                              g->move_count));
    expect_parts(g);
}

static menkhodur_answer answer(const struct game *g, enum call query)
{
    const uint8_t *a = g->actions.bytes, *p = g->positions.bytes;
    size_t al = g->actions.length, pl = g->positions.length;
    if (query == RESULT) return menkhodur_game_result(a, al, p, pl, g->action_count, g->move_count);
    if (query == CAN_DECLARE) return menkhodur_game_can_declare_draw(a, al, p, pl, g->action_count, g->move_count);
    return menkhodur_game_can_claim_by_laws(a, al, p, pl, g->action_count, g->move_count);
}

void ask(struct game *g, enum call query, uint64_t number, uint64_t value)
{
    if (query == RULING) {
        ask_ruling(g, (menkhodur_ruling){ .number = number });
        return;
    }
    about_query(g, query);
    expect_answer(number, value, answer(g, query));
    expect_parts(g);
}

void start(struct game *g, const struct position *p, uint64_t number)
{
    struct part list = lend_list(p);
    uint8_t bytes[MENKHODUR_POSITION_SIZE];
    menkhodur_counts c;
    about("menkhodur_game_start", "parts of %zu and %zu bytes, %zu entries", g->actions.length, g->positions.length, p->entries);
    c = menkhodur_game_start(g->actions.bytes, g->actions.length, g->positions.bytes, g->positions.length, p->board, p->in_check,
                             moves_in(&list), p->entries);
    expect("number", number, c.number);
    expect("actions counted", 0, c.actions);
    expect("moves counted", 0, c.moves);
    if (number == MENKHODUR_ACCEPTED) position_bytes(p, bytes);
    expect_written("positions", &g->positions, 0, bytes, number == MENKHODUR_ACCEPTED ? sizeof bytes : 0);
    expect_unchanged("actions", &g->actions);
    expect_unchanged("list", &list);
    give_back(&list);
}

void play_round(struct game *g, uint64_t moves, bool fresh)
{
    for (uint64_t i = 0; i < moves; i++) {
        struct position next = round_position(g->move_count + 1, fresh);
        play(g, (struct request){ MAKE_MOVE, round_move(g->move_count), 0, &next }, MENKHODUR_ACCEPTED);
    }
}

void refuse(struct game *g, enum call call, uint64_t number)
{
    struct position next = round_position(g->move_count + 1, false);
    if (call >= RESULT) ask(g, call, number, 0);
    else play(g, (struct request){ call, round_move(g->move_count), 0, &next }, number);
}
