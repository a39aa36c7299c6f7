/* The order of checks of the log's calls, over every set of faults, and logs at their limits. */
#include "game.h"

/* How a log is full: not, by its actions, or by its moves. */
enum full { HAS_ROOM, BY_ACTIONS, BY_MOVES };

/* ---- A start: 16, 5, 6 ---- */

static void check_start_order(unsigned faults)
{
    static const uint64_t numbers[] = { MENKHODUR_PART_TOO_SHORT, MENKHODUR_PART_TOO_SHORT, MENKHODUR_OUT_OF_RANGE, MENKHODUR_OUT_OF_RANGE,
                                        MENKHODUR_BAD_LIST, MENKHODUR_BAD_LIST };
    struct game g = lend_game(MENKHODUR_ACTIONS_LENGTH - (faults & 1), MENKHODUR_POSITIONS_LENGTH - (faults >> 1 & 1));
    struct position p = round_position(0, false);
    if (faults & 4) p.board = bad_board(p.board, BAD_BOARDS - 1 - faults % 11);
    if (faults & 8) p.in_check = 2;
    if (faults & 16) p.list[0] = MENKHODUR_LAST_MOVE + 1;
    if (faults & 32) p.entries = MENKHODUR_LONGEST_LIST + 1;
    start(&g, &p, first_of(faults, numbers));
    give_back_game(&g);
}

/* ---- Calls: 16, 9, 10, then each its own, then 13 ---- */

enum { SHORT_ACTIONS = 1, SHORT_POSITIONS = 2, SPOILT = 4, OVER = 8, OWN = 16 };

/* Offers to fill up stand before the moves, so that none of them stands for acceptance. */
static struct game log_with(unsigned faults, enum full full, bool offered, bool claimable)
{
    struct game g = lend_game(MENKHODUR_ACTIONS_LENGTH, MENKHODUR_POSITIONS_LENGTH);
    struct position p = round_position(0, false);
    bool over = faults & OVER;
    uint64_t moves = full == BY_MOVES ? MENKHODUR_MAX_MOVES : claimable ? 8 : 2;
    put_start(&g, &p);
    if (full == BY_ACTIONS) append_offers(&g, MENKHODUR_MAX_ACTIONS - moves - offered - over, 0);
    append_round(&g, moves, false);
    if (offered) append_offers(&g, 1, 1);
    if (over) append(&g, (struct request){ RESIGN, 0, 1, NULL });
    if (faults & SPOILT) put_byte(&g.positions, MENKHODUR_POSITION_IN_CHECK, 2);
    if (faults & SHORT_ACTIONS) g.actions.length--;
    if (faults & SHORT_POSITIONS) g.positions.length--;
    return g;
}

static void check_move_order(unsigned faults, enum full full)
{
    static const uint64_t numbers[] = { MENKHODUR_PART_TOO_SHORT, MENKHODUR_PART_TOO_SHORT, MENKHODUR_NOT_GOOD, MENKHODUR_GAME_OVER,
                                        MENKHODUR_NOT_LISTED, MENKHODUR_OUT_OF_RANGE, MENKHODUR_BAD_LIST, MENKHODUR_WRONG_SIDE,
                                        MENKHODUR_WRONG_RECORD, MENKHODUR_LOG_FULL };
    struct game g = log_with(faults, full, false, false);
    struct position next = round_position(g.move_count + 1, false);
    struct request r = { MAKE_MOVE, round_move(g.move_count), 0, &next };
    if (faults & 16) r.move = 70000;
    if (faults & 32) next.board.en_passant = 9;
    if (faults & 64) next.list[0] = MENKHODUR_LAST_MOVE + 1;
    if (faults & 128) next.board.side_to_move ^= 1;
    if (faults & 256) next.board.pieces[33] = MENKHODUR_WHITE_BISHOP;
    play(&g, r, first_of(full ? faults | 512 : faults, numbers));
    give_back_game(&g);
}

/* `own` is the number of the call's own check: 5, 14 or 15. */
static void check_other_order(enum call call, uint64_t own, unsigned faults, enum full full)
{
    const uint64_t numbers[] = { MENKHODUR_PART_TOO_SHORT, MENKHODUR_PART_TOO_SHORT, MENKHODUR_NOT_GOOD, MENKHODUR_GAME_OVER, own,
                                 MENKHODUR_LOG_FULL };
    bool own_fault = faults & OWN;
    struct game g = log_with(faults, full, call == ACCEPT_DRAW && !own_fault, call == DECLARE_DRAW && !own_fault);
    struct request r = { call, 0, call != ACCEPT_DRAW && call != DECLARE_DRAW && own_fault ? 2 : 0, NULL };
    play(&g, r, first_of(full ? faults | 32 : faults, numbers));
    give_back_game(&g);
}

/* Queries give only 16 and 9, on logs that are full or over too. */
static void check_query_order(unsigned faults, enum full full)
{
    static const uint64_t numbers[] = { MENKHODUR_PART_TOO_SHORT, MENKHODUR_PART_TOO_SHORT, MENKHODUR_NOT_GOOD };
    uint64_t number = first_of(faults & 7, numbers);
    bool over = faults & OVER;
    struct game g = log_with(faults, full, false, true);
    ask(&g, RESULT, number, number == 0 && over ? MENKHODUR_BLACK_RESIGNS : 0);
    ask(&g, CAN_DECLARE, number, number == 0 && !over);
    ask(&g, CAN_CLAIM, number, number == 0 && !over);
    if (number) ask(&g, RULING, number, 0);
    give_back_game(&g);
}

static void check_call_orders(void)
{
    for (enum full full = HAS_ROOM; full <= BY_MOVES; full++)
        for (unsigned faults = 0; faults < 512; faults += few ? 37 : 1) check_move_order(faults, full);
    for (enum full full = HAS_ROOM; full <= BY_ACTIONS; full++)
        for (unsigned faults = 0; faults < 32; faults++) {
            check_other_order(OFFER_DRAW, MENKHODUR_OUT_OF_RANGE, faults, full);
            check_other_order(RESIGN, MENKHODUR_OUT_OF_RANGE, faults, full);
            check_other_order(ACCEPT_DRAW, MENKHODUR_NO_OFFER, faults, full);
            check_other_order(DECLARE_DRAW, MENKHODUR_NO_CLAIM, faults, full);
        }
    for (unsigned i = 0; i < 48; i++) check_query_order(i % 16, (enum full)(i / 16));
}

/* ---- Limits, reached by calls ---- */

/* The most moves leave room for other actions; the most actions for none, though an offer and a claim stand. */
static void check_limits(void)
{
    struct game g = lend_game(MENKHODUR_ACTIONS_LENGTH, MENKHODUR_POSITIONS_LENGTH);
    struct position p = round_position(0, false);
    start(&g, &p, MENKHODUR_ACCEPTED);
    if (few) append_round(&g, MENKHODUR_MAX_MOVES - 4, false);
    play_round(&g, MENKHODUR_MAX_MOVES - g.move_count, false);
    refuse(&g, MAKE_MOVE, MENKHODUR_LOG_FULL);
    if (few) append_offers(&g, MENKHODUR_MAX_ACTIONS - g.action_count - 4, 0);
    while (g.action_count < MENKHODUR_MAX_ACTIONS) play(&g, (struct request){ OFFER_DRAW, 0, g.action_count % 2, NULL }, MENKHODUR_ACCEPTED);
    for (enum call c = MAKE_MOVE; c < RESULT; c++) refuse(&g, c, MENKHODUR_LOG_FULL);
    ask(&g, RESULT, MENKHODUR_ACCEPTED, MENKHODUR_GOES_ON);
    ask(&g, CAN_DECLARE, MENKHODUR_ACCEPTED, 1);
    ask(&g, CAN_CLAIM, MENKHODUR_ACCEPTED, 1);
    ask_ruling(&g, (menkhodur_ruling){ 0, MENKHODUR_MAX_MOVES, MENKHODUR_MAX_MOVES, MENKHODUR_MAX_MOVES / 4, 0, 4, MENKHODUR_CLAIM_BY_BOTH,
                                       MENKHODUR_CLAIM_BY_BOTH });
    give_back_game(&g);
}

/* The last action of a full log may be any. */
static void check_last_action(enum call call, uint64_t result)
{
    struct game g = lend_game(MENKHODUR_ACTIONS_LENGTH, MENKHODUR_POSITIONS_LENGTH);
    struct position p = round_position(0, false), next = round_position(9, false);
    put_start(&g, &p);
    append_round(&g, 8, false);
    append_offers(&g, MENKHODUR_MAX_ACTIONS - 9, 0);
    play(&g, (struct request){ call, round_move(8), 0, &next }, MENKHODUR_ACCEPTED);
    ask(&g, RESULT, MENKHODUR_ACCEPTED, result);
    refuse(&g, RESIGN, result ? MENKHODUR_GAME_OVER : MENKHODUR_LOG_FULL);
    give_back_game(&g);
}

void check_orders(void)
{
    for (unsigned faults = 0; faults < 64; faults++) check_start_order(faults);
    check_call_orders();
    check_limits();
    check_last_action(MAKE_MOVE, MENKHODUR_GOES_ON);
    check_last_action(OFFER_DRAW, MENKHODUR_GOES_ON);
    check_last_action(ACCEPT_DRAW, MENKHODUR_DRAW_ACCEPTED);
    check_last_action(DECLARE_DRAW, MENKHODUR_DRAW_DECLARED);
    check_last_action(RESIGN, MENKHODUR_WHITE_RESIGNS);
}
