/* The rulings of document 02, order 5, beside a count of the moves and positions that were played: runs around a hundred moves with castling
 * rights lost among them, equal positions by their numbers, and games that have ended. */
#include "game.h"

/* ---- Document 02, order 5 ---- */

static bool pawn_or_capture(const struct position *before, uint64_t move)
{
    uint8_t man = before->board.pieces[move % 64];
    return man == MENKHODUR_WHITE_PAWN || man == MENKHODUR_BLACK_PAWN || before->board.pieces[move / 64 % 64] != MENKHODUR_EMPTY;
}

static bool rights_change(const menkhodur_board *before, const menkhodur_board *after)
{
    return before->white_castle_rights != after->white_castle_rights || before->black_castle_rights != after->black_castle_rights;
}

/* The same record but for the counters, and the same list in order. */
static bool alike(const struct position *p, const struct position *q)
{
    for (unsigned i = 0; i < KEY_NUMBERS; i++)
        if (get_number(p->board, i) != get_number(q->board, i)) return false;
    for (size_t i = 0; i < p->entries && i < q->entries; i++)
        if (p->list[i] != q->list[i]) return false;
    return p->entries == q->entries;
}

static void count_moves(const struct record *r, menkhodur_ruling *w)
{
    unsigned k = 0;
    for (unsigned i = 0; i < r->actions; i++) {
        if (r->done[i].call != MAKE_MOVE) continue;
        bool emptied = pawn_or_capture(&r->at[k], r->done[i].move);
        w->laws_count = emptied ? 0 : w->laws_count + 1;
        w->count = emptied || rights_change(&r->at[k].board, &r->at[k + 1].board) ? 0 : w->count + 1;
        k++;
    }
}

static uint64_t reason(uint64_t count, uint64_t equals)
{
    if (count >= 100) return equals >= 2 ? MENKHODUR_CLAIM_BY_BOTH : MENKHODUR_CLAIM_BY_COUNT;
    return equals >= 2 ? MENKHODUR_CLAIM_BY_POSITIONS : MENKHODUR_CLAIM_NONE;
}

/* The run is as many moves long as the count: it begins with the position after what has emptied it. */
menkhodur_ruling ruling_of(const struct record *r)
{
    menkhodur_ruling w = { 0 };
    count_moves(r, &w);
    for (uint64_t k = r->moves - w.count; k < r->moves; k++) {
        if (!alike(&r->at[k], &r->at[r->moves])) continue;
        w.equals++;
        if (w.equals == 1) w.first = k;
        if (w.equals == 2) w.second = k;
    }
    if (result_of(r) != MENKHODUR_GOES_ON) return w;
    w.claim = reason(w.count, w.equals);
    w.laws_claim = reason(w.laws_count, w.equals);
    return w;
}

/* ---- The knights' round, with moves among it that empty something ---- */

enum { E1 = 4, G1 = 6, H1 = 7, A2 = 8, A3 = 16, H3 = 23, D4 = 27, D5 = 35, H6 = 47, E8 = 60, G8 = 62, H8 = 63, NEVER = RECORDED + 1 };

/* The moves with which each side loses its right (nobody's, from its corner), and those that a pawn makes or that take a man: 1 is the first
 * move. The round goes on after each of them. With `fresh` no two lists are equal. */
struct plan {
    unsigned white_loses, black_loses, pawn, capture;
    bool fresh;
};

static const struct plan quiet = { NEVER, NEVER, NEVER, NEVER, false };

static uint64_t planned_move(const struct plan *plan, unsigned k)
{
    unsigned before = (plan->white_loses <= k && plan->white_loses) + (plan->black_loses <= k) + (plan->pawn <= k) + (plan->capture <= k);
    if (k + 1 == plan->white_loses) return MENKHODUR_MOVE(H1, H3, 0);
    if (k + 1 == plan->black_loses) return MENKHODUR_MOVE(H8, H6, 0);
    if (k + 1 == plan->pawn) return MENKHODUR_MOVE(A2, A3, 0);
    return k + 1 == plan->capture ? MENKHODUR_MOVE(D4, D5, 0) : round_move(k - before);
}

static struct position planned_position(const struct plan *plan, unsigned k, menkhodur_board b)
{
    return (struct position){ b, 0, { plan->fresh ? (uint16_t)(8192 + k) : 1804, (uint16_t)planned_move(plan, k) }, 2 };
}

static menkhodur_board first_board(void)
{
    static const uint8_t squares[] = { E1, E8, G1, G8, A2, D4, D5 };
    static const uint8_t men[] = { MENKHODUR_WHITE_KING, MENKHODUR_BLACK_KING, MENKHODUR_WHITE_KNIGHT, MENKHODUR_BLACK_KNIGHT,
                                   MENKHODUR_WHITE_PAWN, MENKHODUR_WHITE_ROOK, MENKHODUR_BLACK_BISHOP };
    menkhodur_board b = board_with(MENKHODUR_WHITE, sizeof men, squares, men);
    b.white_castle_rights = b.black_castle_rights = MENKHODUR_KING_SIDE;
    return b;
}

/* What the game at hand must hold. */
static struct record played;

static struct game planned(const struct plan *plan)
{
    struct game g = lend_game(MENKHODUR_ACTIONS_LENGTH, MENKHODUR_POSITIONS_LENGTH);
    played.actions = played.moves = 0;
    played.at[0] = planned_position(plan, 0, first_board());
    start(&g, &played.at[0], MENKHODUR_ACCEPTED);
    return g;
}

static void act(struct game *g, struct request q)
{
    play(g, q, MENKHODUR_ACCEPTED);
    note(&played, q);
}

static void go_to(struct game *g, const struct plan *plan, unsigned moves)
{
    while (played.moves < moves) {
        uint64_t move = planned_move(plan, played.moves);
        struct position next = planned_position(plan, played.moves + 1, after_of(played.at[played.moves].board, move));
        act(g, (struct request){ MAKE_MOVE, move, 0, &next });
    }
}

/* What the log answers is what was counted here, and the two queries say the same as the ruling. */
static void check_ruling(struct game *g)
{
    menkhodur_ruling want = ruling_of(&played);
    ask_ruling(g, want);
    ask(g, CAN_DECLARE, MENKHODUR_ACCEPTED, want.claim != MENKHODUR_CLAIM_NONE);
    ask(g, CAN_CLAIM, MENKHODUR_ACCEPTED, want.laws_claim != MENKHODUR_CLAIM_NONE);
}

/* ---- A hundred moves ---- */

/* A ruling after each number of moves from `from` to `to`. */
static void check_run(const struct plan *plan, unsigned from, unsigned to)
{
    struct game g = planned(plan);
    for (unsigned moves = from; moves <= to; moves++) {
        go_to(&g, plan, moves);
        check_ruling(&g);
    }
    give_back_game(&g);
}

/* Rights lost with move `at`, by one side or, before, by the other too, or lost after a pawn move or a capture with move `at`. */
static void check_emptied(unsigned at, bool fresh)
{
    struct plan white = quiet, black = quiet, both = quiet, pawn = quiet, capture = quiet;
    white.fresh = black.fresh = both.fresh = pawn.fresh = capture.fresh = fresh;
    white.white_loses = at;
    black.black_loses = at;
    both.black_loses = at, both.white_loses = at / 2;
    pawn.pawn = at, pawn.white_loses = at + 2;
    capture.capture = at, capture.black_loses = at + 1;
    check_run(&white, 98, 102);
    check_run(&black, 98, 102);
    check_run(&both, 98, 102);
    check_run(&pawn, 98, 105);
    check_run(&capture, 98, 105);
}

/* 98 moves and more, with fresh lists and with equal positions. */
static void check_runs(bool fresh)
{
    static const unsigned at[] = { 1, 2, 3, 50, 97, 98, 99, 100, 101 };
    struct plan none = quiet;
    none.fresh = fresh;
    check_run(&none, 98, 102);
    for (unsigned i = 0; i < (few ? 2 : sizeof at / sizeof *at); i++) check_emptied(at[i], fresh);
}

/* The same in figures: white loses its right with the first move, black with the second. */
static void check_figures(void)
{
    const struct plan plan = { 1, 2, NEVER, NEVER, true };
    struct game g = planned(&plan);
    go_to(&g, &plan, 1);
    ask_ruling(&g, (menkhodur_ruling){ 0, 0, 1, 0, 0, 0, MENKHODUR_CLAIM_NONE, MENKHODUR_CLAIM_NONE });
    go_to(&g, &plan, 99);
    ask_ruling(&g, (menkhodur_ruling){ 0, 97, 99, 0, 0, 0, MENKHODUR_CLAIM_NONE, MENKHODUR_CLAIM_NONE });
    go_to(&g, &plan, 100);
    ask_ruling(&g, (menkhodur_ruling){ 0, 98, 100, 0, 0, 0, MENKHODUR_CLAIM_NONE, MENKHODUR_CLAIM_BY_COUNT });
    refuse(&g, DECLARE_DRAW, MENKHODUR_NO_CLAIM);
    go_to(&g, &plan, 101);
    ask_ruling(&g, (menkhodur_ruling){ 0, 99, 101, 0, 0, 0, MENKHODUR_CLAIM_NONE, MENKHODUR_CLAIM_BY_COUNT });
    go_to(&g, &plan, 102);
    ask_ruling(&g, (menkhodur_ruling){ 0, 100, 102, 0, 0, 0, MENKHODUR_CLAIM_BY_COUNT, MENKHODUR_CLAIM_BY_COUNT });
    play(&g, (struct request){ DECLARE_DRAW, 0, 0, NULL }, MENKHODUR_ACCEPTED);
    ask_ruling(&g, (menkhodur_ruling){ 0, 100, 102, 0, 0, 0, MENKHODUR_CLAIM_NONE, MENKHODUR_CLAIM_NONE });
    give_back_game(&g);
}

/* ---- Equal positions ---- */

/* After each of twenty moves, and after an offer before it: an offer is no move, and shifts no number. */
static void check_equals(const struct plan *plan)
{
    struct game g = planned(plan);
    check_ruling(&g);
    for (unsigned moves = 1; moves <= 20; moves++) {
        if (moves % 3 == 0) act(&g, (struct request){ OFFER_DRAW, 0, (uint8_t)(moves % 2), NULL });
        check_ruling(&g);
        go_to(&g, plan, moves);
        check_ruling(&g);
    }
    give_back_game(&g);
}

/* One, two and three earlier ones, from the start on and from the third position on. */
static void check_equal_figures(unsigned loses, uint64_t first)
{
    struct plan plan = quiet;
    struct game g;
    plan.white_loses = loses;
    g = planned(&plan);
    for (unsigned equals = 1; equals <= 3; equals++) {
        uint64_t moves = first + 4 * equals, by = equals < 2 ? MENKHODUR_CLAIM_NONE : MENKHODUR_CLAIM_BY_POSITIONS;
        go_to(&g, &plan, (unsigned)moves);
        ask_ruling(&g, (menkhodur_ruling){ 0, 4 * equals, moves, equals, first, equals < 2 ? 0 : first + 4, by, by });
    }
    give_back_game(&g);
}

/* ---- Games that have ended ---- */

static void check_ended(struct request last)
{
    const struct plan plan = { 1, NEVER, NEVER, NEVER, false };
    struct game g = planned(&plan);
    go_to(&g, &plan, 101);
    act(&g, (struct request){ OFFER_DRAW, 0, 0, NULL });
    ask_ruling(&g, (menkhodur_ruling){ 0, 100, 101, 25, 1, 5, MENKHODUR_CLAIM_BY_BOTH, MENKHODUR_CLAIM_BY_BOTH });
    act(&g, last);
    ask_ruling(&g, (menkhodur_ruling){ 0, 100, 101, 25, 1, 5, MENKHODUR_CLAIM_NONE, MENKHODUR_CLAIM_NONE });
    check_ruling(&g);
    give_back_game(&g);
}

/* A list without moves ends the game; a position without moves is equal to none that had some. */
static void check_stalemate(void)
{
    struct game g = planned(&quiet);
    struct position last;
    go_to(&g, &quiet, 99);
    last = planned_position(&quiet, 100, after_of(played.at[99].board, round_move(99)));
    last.entries = 0;
    act(&g, (struct request){ MAKE_MOVE, round_move(99), 0, &last });
    ask_ruling(&g, (menkhodur_ruling){ 0, 100, 100, 0, 0, 0, MENKHODUR_CLAIM_NONE, MENKHODUR_CLAIM_NONE });
    check_ruling(&g);
    give_back_game(&g);
}

void check_rulings(void)
{
    check_figures();
    check_runs(false);
    check_runs(true);
    check_equals(&quiet);
    check_equals(&(struct plan){ 1, 2, NEVER, NEVER, false });
    check_equals(&(struct plan){ 9, NEVER, 3, NEVER, false });
    check_equals(&(struct plan){ NEVER, 2, NEVER, 11, false });
    check_equal_figures(NEVER, 0);
    check_equal_figures(2, 2);
    check_ended((struct request){ DECLARE_DRAW, 0, 0, NULL });
    check_ended((struct request){ ACCEPT_DRAW, 0, 0, NULL });
    check_ended((struct request){ RESIGN, 0, 1, NULL });
    check_stalemate();
}
