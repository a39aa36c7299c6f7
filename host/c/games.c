/* Games of random actions, good and bad, beside document 01's "Draws and endings" written out once more. */
#include "game.h"

enum { TRIES = 60, GAMES = 300, GAMES_FEW = 20 };

/* ---- Document 01 ---- */

uint64_t result_of(const struct record *r)
{
    const struct position *now = &r->at[r->moves];
    const struct request *last = r->actions ? &r->done[r->actions - 1] : NULL;
    if (now->entries == 0 && !now->in_check) return MENKHODUR_STALEMATE;
    if (now->entries == 0) return now->board.side_to_move ? MENKHODUR_WHITE_CHECKMATES : MENKHODUR_BLACK_CHECKMATES;
    if (last && last->call == ACCEPT_DRAW) return MENKHODUR_DRAW_ACCEPTED;
    if (last && last->call == DECLARE_DRAW) return MENKHODUR_DRAW_DECLARED;
    if (last && last->call == RESIGN) return last->colour ? MENKHODUR_BLACK_RESIGNS : MENKHODUR_WHITE_RESIGNS;
    return MENKHODUR_GOES_ON;
}

static bool offer_stands(const struct record *r)
{
    const struct request *end = r->done + r->actions;
    if (r->actions > 0 && end[-1].call == OFFER_DRAW) return true;
    return r->actions > 1 && end[-2].call == OFFER_DRAW && end[-2].colour != r->at[r->moves].board.side_to_move;
}

static bool equal(const struct position *p, const struct position *q)
{
    bool same = p->entries == q->entries;
    for (unsigned i = 0; i < 64; i++) same = same && p->board.pieces[i] == q->board.pieces[i];
    for (size_t i = 0; same && i < p->entries; i++) same = p->list[i] == q->list[i];
    return same && p->board.side_to_move == q->board.side_to_move && p->board.en_passant == q->board.en_passant
        && p->board.white_castle_rights == q->board.white_castle_rights && p->board.black_castle_rights == q->board.black_castle_rights;
}

static bool empties(const struct position *p, uint64_t move, const struct position *q)
{
    uint8_t man = p->board.pieces[move % 64];
    return man == 1 || man == 7 || p->board.pieces[move / 64 % 64] || p->board.white_castle_rights != q->board.white_castle_rights
        || p->board.black_castle_rights != q->board.black_castle_rights;
}

static bool claim_stands(const struct record *r)
{
    unsigned first = 0, k = 0, equals = 0;
    for (unsigned i = 0; i < r->actions; i++) {
        if (r->done[i].call != MAKE_MOVE) continue;
        if (empties(&r->at[k], r->done[i].move, &r->at[k + 1])) first = k + 1;
        k++;
    }
    for (k = first; k < r->moves; k++) equals += equal(&r->at[k], &r->at[r->moves]);
    return result_of(r) == MENKHODUR_GOES_ON && (r->moves - first >= 100 || equals >= 2);
}

static bool in_range(const struct position *p)
{
    return p->in_check < 2 && board_in_range(p->board);
}

static bool lists(const struct position *p, uint64_t move)
{
    for (size_t i = 0; i < p->entries; i++)
        if (p->list[i] == move) return true;
    return false;
}

static bool bad_list(const struct position *p)
{
    bool bad = p->entries > MENKHODUR_LONGEST_LIST;
    for (size_t i = 0; i < p->entries; i++) bad = bad || p->list[i] > MENKHODUR_LAST_MOVE;
    return bad;
}

static uint64_t move_number(const struct record *r, struct request q)
{
    if (!lists(&r->at[r->moves], q.move)) return MENKHODUR_NOT_LISTED;
    if (!in_range(q.next)) return MENKHODUR_OUT_OF_RANGE;
    if (bad_list(q.next)) return MENKHODUR_BAD_LIST;
    if (q.next->board.side_to_move == r->at[r->moves].board.side_to_move) return MENKHODUR_WRONG_SIDE;
    return same_board(after_of(r->at[r->moves].board, q.move), q.next->board) ? MENKHODUR_ACCEPTED : MENKHODUR_WRONG_RECORD;
}

static uint64_t number_for(const struct record *r, struct request q)
{
    if (result_of(r) != MENKHODUR_GOES_ON) return MENKHODUR_GAME_OVER;
    switch (q.call) {
    case MAKE_MOVE: return move_number(r, q);
    case ACCEPT_DRAW: return offer_stands(r) ? MENKHODUR_ACCEPTED : MENKHODUR_NO_OFFER;
    case DECLARE_DRAW: return claim_stands(r) ? MENKHODUR_ACCEPTED : MENKHODUR_NO_CLAIM;
    default: return q.colour > 1 ? MENKHODUR_OUT_OF_RANGE : MENKHODUR_ACCEPTED;
    }
}

void note(struct record *r, struct request done)
{
    r->done[r->actions++] = done;
    if (done.call == MAKE_MOVE) r->at[++r->moves] = *done.next;
}

/* ---- Random games ---- */

/* A white and a black man that go there and back, so that positions recur; now and then a pawn that moves, a man that is taken (by himself, who
 * stays where he is), a right that is lost by a move of nobody, and an empty list. The third entry is the rare one. */
enum { B3 = 17, C3 = 18, D4 = 27, E4 = 28, B6 = 41, C6 = 42, A8 = 56, H8 = 63, E1 = 4, E5 = 36 };

static uint16_t there_and_back(const menkhodur_board *b, unsigned here, unsigned there)
{
    return b->pieces[here] ? MENKHODUR_MOVE(here, there, 0) : MENKHODUR_MOVE(there, here, 0);
}

static struct position some_position(menkhodur_board b)
{
    struct position p = { b, (uint8_t)any(2), { 0 }, any(30) ? 3 : 0 };
    static const uint16_t rare[] = { MENKHODUR_MOVE(B3, B3, 0), MENKHODUR_MOVE(E1, E5, 0), MENKHODUR_MOVE(H8, A8, 0), MENKHODUR_MOVE(B6, C3, 0) };
    p.list[0] = there_and_back(&b, B3, C3), p.list[1] = there_and_back(&b, B6, C6);
    p.list[2] = any(8) ? there_and_back(&b, D4, E4) : rare[any(4)];
    return p;
}

static menkhodur_board some_start(void)
{
    menkhodur_board b = empty_board;
    b.side_to_move = (uint8_t)any(2);
    b.pieces[B3] = (uint8_t)(2 + any(4)), b.pieces[B6] = (uint8_t)(8 + any(4)), b.pieces[D4] = any(2) ? MENKHODUR_WHITE_PAWN : MENKHODUR_BLACK_PAWN;
    b.white_castle_rights = any(25) ? 3 : 1;
    b.black_castle_rights = any(25) ? 3 : 2;
    b.en_passant = (uint8_t)any(9);
    b.half_moves = (uint16_t)any_number(HALF_MOVES);
    b.full_moves = (uint16_t)any_number(FULL_MOVES);
    return b;
}

static void spoil(struct position *p)
{
    unsigned how = any(60);
    if (how == 0) p->board.pieces[any(64)] = 13;
    if (how == 1) p->in_check = 2;
    if (how == 2) p->list[p->entries ? any((unsigned)p->entries) : 0] = MENKHODUR_LAST_MOVE + 1;
    if (how == 3) p->entries = MENKHODUR_LONGEST_LIST + 1;
    if (how == 4) p->board.side_to_move ^= 1;
    if (how == 5 || how == 6) how = any(ALL_NUMBERS), set_number(&p->board, how, any_number(how));
    if (how == 7) p->board = bad_board(p->board, BAD_BOARDS - 1 - any(5));
    if (how == 8) p->board.half_moves = p->board.half_moves == MENKHODUR_LAST_COUNT ? 0 : p->board.half_moves + 1;
    if (how == 9) p->board.full_moves = p->board.full_moves == MENKHODUR_LAST_COUNT ? 1 : p->board.full_moves + 1;
}

static struct request some_request(const struct record *r, struct position *next)
{
    const struct position *now = &r->at[r->moves];
    unsigned kind = any(40);
    enum call call = kind < 30 ? MAKE_MOVE : kind < 37 ? OFFER_DRAW : kind < 38 ? ACCEPT_DRAW : kind < 39 ? DECLARE_DRAW : RESIGN;
    uint64_t move = any(20) ? now->list[any(10) ? any(2) : 2] : any(70000);
    *next = some_position(after_of(now->board, move % 28672));
    spoil(next);
    return (struct request){ call, move, (uint8_t)(any(15) ? any(2) : any(256)), next };
}

/* The clock of the last position beside the count of article 9.3: the start's clock is in it while nothing has emptied that. */
static uint64_t clock_by_count(const struct record *r)
{
    uint64_t count = ruling_of(r).laws_count, clock = count + (count == r->moves ? r->at[0].board.half_moves : 0);
    return clock < MENKHODUR_LAST_COUNT ? clock : MENKHODUR_LAST_COUNT;
}

static void check_game(void)
{
    static struct record r;
    struct game g = lend_game(MENKHODUR_ACTIONS_LENGTH, MENKHODUR_POSITIONS_LENGTH);
    r.actions = r.moves = 0;
    r.at[0] = some_position(some_start());
    start(&g, &r.at[0], MENKHODUR_ACCEPTED);
    for (unsigned tries = 0; tries < TRIES; tries++) {
        struct position next;
        struct request q = some_request(&r, &next);
        uint64_t number = number_for(&r, q);
        play(&g, q, number);
        if (number == MENKHODUR_ACCEPTED) note(&r, q);
        expect("clock by the Laws' count", clock_by_count(&r), r.at[r.moves].board.half_moves);
        ask(&g, RESULT, MENKHODUR_ACCEPTED, result_of(&r));
        ask(&g, CAN_DECLARE, MENKHODUR_ACCEPTED, claim_stands(&r));
        ask(&g, CAN_CLAIM, MENKHODUR_ACCEPTED, ruling_of(&r).laws_claim != 0);
        ask_ruling(&g, ruling_of(&r));
    }
    give_back_game(&g);
}

void check_games(void)
{
    for (unsigned i = 0; i < (few ? GAMES_FEW : GAMES); i++) check_game();
}
